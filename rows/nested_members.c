struct t{int x;int y;};struct s{struct t a;struct t b;}v;int main(void){struct t*p=&v.b;int*q;p->y=4;q=&p->x;*q=3;putchar(48+v.b.x);q=(int*)p;q[1]=5;putchar(48+v.b.y);return q[-1];}
