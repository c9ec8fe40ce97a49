union u{int*p;long i;};int a[2]={10,20};int main(void){union u v;v.p=a;v.i=v.i+4;putchar(*v.p+45);v.i=v.i+4;return *v.p;}
