struct s{int a;int b[2];int c;}v;int main(void){int*p=&v.b[1];p[-1]=3;putchar(48+v.b[0]);p=&v.a;*p=1;p[1]=2;return 0;}
