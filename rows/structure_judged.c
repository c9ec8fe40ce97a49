struct s{int a;int b;}x;int main(void){struct s*p=(struct s*)&x.b;
*p=x;return 0;}
