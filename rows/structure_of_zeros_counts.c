struct s{char c[24];}z;struct s f(int n){if(n)return z;}int main(void){f(0);f(1);return 0;}
