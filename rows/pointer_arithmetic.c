int a[5]={1,2,3,4,5};int main(void){int*p=a+2;int*q=2+a;char c=1;long l=-1;unsigned char u=1;
putchar(48+*p);putchar(48+*(p-c));putchar(48+p[l]);putchar(48+1[p]);putchar(48+*(q+u));p+=2;putchar(48+*p);p-=3;putchar(48+*p);p+=-1;putchar(48+*p);
putchar(48+*p++);putchar(48+*++p);putchar(48+*p--);putchar(48+*--p);return 0;}
