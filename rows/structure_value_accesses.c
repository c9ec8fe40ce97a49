struct s{int a;int b;}x;int main(void){struct s z;z=x;return (z=x).b;}
