struct q{char c;int i;};struct s{struct q a;int*p;struct q b[2];}g={{1,2},0,{{3},{.i=4}}};
union u{int i;char c[4];}h={.c={5,6}};int k=7;
int main(void){struct q x={.i=8,.c=9};struct s y={x,&k,{[1]={1,2}}};struct s z={.p=&k,3,4,5};union u v={258};
putchar(48+g.a.c);putchar(48+g.a.i);putchar(48+(g.p==0));putchar(48+g.b[0].c);putchar(48+g.b[0].i);putchar(48+g.b[1].c);putchar(48+g.b[1].i);
putchar(48+h.c[0]);putchar(48+h.c[1]);putchar(48+h.c[2]);putchar(48+x.c);putchar(48+x.i);
putchar(48+y.a.c);putchar(48+y.a.i);putchar(48+*y.p);putchar(48+y.b[0].i);putchar(48+y.b[1].c);putchar(48+y.b[1].i);
putchar(48+z.a.i);putchar(48+*z.p);putchar(48+z.b[0].c);putchar(48+z.b[0].i);putchar(48+z.b[1].c);putchar(48+z.b[1].i);
putchar(48+v.c[0]);putchar(48+v.c[1]);return 0;}
