struct s{int a;int b;};int main(void){struct s*p=malloc(sizeof(struct s));free(&p->a);p=malloc(8);
free(&p->b);return 0;}
