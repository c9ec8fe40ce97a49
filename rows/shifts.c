void h(unsigned long v){if(v>15)h(v>>4);putchar("0123456789abcdef"[v&15]);}
void p(unsigned long v){h(v);putchar(32);}
int main(void){int n=31;int i=-8;unsigned u=0x80000001U;long l=-8;unsigned long m=0x8000000000000001UL;
p(1<<n);p(i>>n);p(u>>n);p(u<<n);n=32;p(1<<n);p(i>>n);p(u>>n);p(u<<n);p(m<<n);p(m>>n);
n=63;p(m<<n);p(m>>n);p(l>>n);p(1L<<n);n=64;p(m<<n);p(m>>n);p(l>>n);p(u<<n);return 0;}
