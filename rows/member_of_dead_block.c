struct s{int a;int b;};int main(void){struct s*p=malloc(sizeof(struct s));int*q;p->b=7;q=&p->b;putchar(48+*q);free(p);
return p->
b;}
