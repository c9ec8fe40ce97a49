void h(unsigned long v){if(v>15)h(v>>4);putchar("0123456789abcdef"[v&15]);}
void p(unsigned long v){h(v);putchar(32);}
int main(void){int i=100;unsigned u=7;long l=-5;char c=200;int a[1]={-100};long*q=&l;
p(i+=5);p(i-=200);p(i*=3);p(i/=4);p(i%=7);p(i<<=4);p(i>>=2);p(i&=0xff);p(i|=0x100);p(i^=0x1ff);
p(u-=8);p(u/=2);p(u*=l);p(c+=100);p(c*=c);p(c>>=1);p(c-=1000);
p(a[0]/=7);p(a[0]%=4);p(a[0]<<=u);p(*q*=c);p(*q>>=1);p((*q)^=l);p(i+=l+=3);return 0;}
