int x=1;int f(int x){{int x=5;x++;putchar(48+x);}x++;putchar(48+x);return x;}int main(void){int y=x;{int x=y+1;y=f(x);}for(int y=7;y<8;y++)putchar(48+y);return x*10+y;}
