void f(int n){if(n==0)exit(300);putchar(48+n);f(n-1);}int main(void){f(2);return 1;}
