void h(unsigned long v){if(v>15)h(v>>4);putchar("0123456789abcdef"[v&15]);}
void p(unsigned long v){h(v);putchar(32);}
int main(void){
unsigned char c=255;signed char s=-128;unsigned short w=65535;unsigned u=4294967295U;int i=-1;long l=-1;unsigned long m=1;
p(c+c);p(s-1);p(w*w);p(u+1);p(u+l);p(i<u);p(l<u);p(i<m);p(-u);p(~c);p(s==128);p((char)s==128);p(u/i);p(u/l);
return 0;}
