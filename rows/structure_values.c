struct s{int a;int b[2];}x={1,{2,3}};struct s y={4,{5,6}};
int main(void){struct s z;int c=0;z.a=(c?x:y).a;putchar(48+z.a);putchar(48+(z=x).a);putchar(48+z.b[1]);putchar(48+(c,y).a);
putchar(48+(z=*(c?&x:&y)).a);return (z.a++,z).a;}
