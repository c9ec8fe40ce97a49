struct s{int*p;int n;}a;int x=66;int main(void){a.p=&x;a.n=1;a=a;putchar(*a.p);return a.n;}
