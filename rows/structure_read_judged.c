struct s{int a;int b;}x;int main(void){struct s*p=(struct s*)&x.b;struct s y;
y=
*p;return 0;}
