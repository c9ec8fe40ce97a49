struct s{int n;int*p;};struct s f(void){}int main(void){struct s v=f();putchar(48+(v.p==0));return v.n+f().n;}
