void h(unsigned long v){if(v>15)h(v>>4);putchar("0123456789abcdef"[v&15]);}
void p(unsigned long v){h(v);putchar(32);}
int main(void){int i=-2147483647-1;long l=-9223372036854775807L-1;int d=-1;
p(i/d);p(i%d);p(l/d);p(l%d);p(-i);p(-l);p(i*d);p(l*d);p(-7/2);p(-7%2);p(7/-2);p(7%-2);p(-1U/2);p(i-1);p(i/=d);p(l%=d);return 0;}
