int f(int n){int x;x=x+n;return x;}int main(void){int a[2];f(7);a[1]=f(1);return a[0]*10+a[1];}
