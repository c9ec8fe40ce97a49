char a[3];int main(void){char*p=a;p[2]=1;putchar(48+p[2]);
p[-1]=1;return 0;}
