int f(int n){putchar(46);return f(n+1);}int main(void){return f(0);}
