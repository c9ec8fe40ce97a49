struct s{int a;int b;};int x[3];int main(void){struct s*p=(struct s*)(x+2);(*p).a=1;putchar(48+x[2]);
(*p).b
=2;return 0;}
