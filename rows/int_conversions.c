void h(unsigned long v){if(v>15)h(v>>4);putchar("0123456789abcdef"[v&15]);}
void p(unsigned long v){h(v);putchar(32);}
int main(void){
p((int)2147483647L);p((int)2147483648L);p((int)4294967295L);p((int)4294967296L);
p((unsigned)-1);p((unsigned)4294967296L);p((long)(unsigned)-1);p((long)-1);p((unsigned long)-1);
p((long long)-2147483648L);p((unsigned long long)(signed char)-1);p((unsigned)(short)-1);p((long)(unsigned short)-1);return 0;}
