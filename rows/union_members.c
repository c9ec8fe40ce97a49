union u{long l;int i[2];char c;}v;int main(void){char*p=&v.c;v.l=258;putchar(48+*p);putchar(48+v.i[0]-256);p[1]=1;return 0;}
