struct s{int a[4];};int f(struct s x){return x.a[3];}int main(void){struct s*p=malloc(16);p->a[3]=65;putchar(f(*p));p=malloc(8);
putchar(f(
*p));return 0;}
