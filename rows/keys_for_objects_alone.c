int f(int n){return n+1;}int main(void){return f(2);}
