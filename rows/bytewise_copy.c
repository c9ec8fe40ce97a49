struct s{int*p;};int x=66;int main(void){struct s a;struct s c;a.p=&x;char*d=(char*)&c;char*e=(char*)&a;int i;
for(i=0;i<8;i=i+1)d[i]=e[i];putchar(48+(a.p==c.p));return *c.p;}
