struct n{int v;struct n*q;};
int main(void){struct n*h=0;int i;int s=0;for(i=0;i<5;i++){struct n*m=malloc(sizeof(struct n));m->v=i+1;m->q=h;h=m;}
while(h){struct n*m=h->q;s=s*3+h->v;free(h);h=m;}putchar(48+(h==0));return s%256;}
