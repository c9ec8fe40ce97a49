int a[4];int b[4];int main(void){int*p=a;int*q=a+3;int*n=0;char*w=(char*)n;w=w-1;
putchar(48+(p<q));putchar(48+(q<=p));putchar(48+(p>q));putchar(48+(q>=p));putchar(48+(p==a));putchar(48+(p!=&a[0]));
putchar(48+(n==0));putchar(48+!p);putchar(48+(p&&!n));putchar(48+((char*)p<w));putchar(48+(p+4<=b));putchar(48+(a<b));return 0;}
