void h(unsigned long v){if(v>15)h(v>>4);putchar("0123456789abcdef"[v&15]);}
void p(unsigned long v){h(v);putchar(32);}
signed char s=200;unsigned short w=-1;int f(signed char c){return c;}short g(void){return 40000;}
int main(void){signed char t;unsigned char c;p(s);p(w);p(t=255);p(c=-1);p(f(300));p(g());p(s+=100);p(c<<=1);p(w>>=4);p(s*=-1);return 0;}
