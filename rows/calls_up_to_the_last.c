int f(int n){putchar(46);if(n>1)return f(n-1);return 7;}int main(void){return f(13)+f(13);}
