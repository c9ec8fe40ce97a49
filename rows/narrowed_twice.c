struct t{int x;int y;};int a[4];int main(void){struct t*p=(struct t*)a;int*q=&p->y;struct t*r=(struct t*)q;r->x=1;putchar(48+a[1]);r->y=2;return 0;}
