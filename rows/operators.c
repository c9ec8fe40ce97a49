void h(unsigned long v){if(v>15)h(v>>4);putchar("0123456789abcdef"[v&15]);}
void p(unsigned long v){h(v);putchar(32);}
int main(void){int i=-10;int j=3;unsigned u=4000000000U;unsigned v=7;long l=-10000000000L;unsigned long m=18446744073709551615UL;
p(i+j);p(i-j);p(i*j);p(i/j);p(i%j);p(i&j);p(i|j);p(i^j);p(~j);p(-u);p(u+u);p(u*v);p(u/v);p(u%v);p(u-v-u);
p(l+i);p(l*l);p(l/i);p(l%j);p(l^m);p(m*m);p(m/u);p(m%v);p(i<j);p(i<u);p(l<=m);p(l>=i);p(i==-10);p(m!=-1);p(!l);p(+u);return 0;}
