void h(unsigned long v){if(v>15)h(v>>4);putchar("0123456789abcdef"[v&15]);}
void p(unsigned long v){h(v);putchar(32);}
int main(void){int i=-1;unsigned u=1;long l=-1;char*s="x";p(i<0?i:u);p(i<0?i:l);p(i>0?i:(signed char)-1);p(*(i?s:0));p((i?0:s)==0);return 0;}
