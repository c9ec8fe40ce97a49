struct s{int a;int b[3];};struct s f(struct s*p){return
*p;}int main(void){struct s*p=malloc(16);p->a=66;putchar(f(p).a);free(p);
return f(p).a;}
