struct n{int v;struct n*q;};
int main(void){struct n*h=0;int i;for(i=0;i<3;i++){struct n*m=malloc(sizeof(struct n));m->v=i;m->q=h;h=m;}
for(;h;
h=h->q){putchar(48+h->v);free(h);}return 0;}
