void h(unsigned long v){if(v>15)h(v>>4);putchar("0123456789abcdef"[v&15]);}
void p(unsigned long v){h(v);putchar(32);}
int main(void){
p((signed char)127);p((signed char)128);p((signed char)255);p((signed char)256);
p((char)255);p((char)256);p((char)-1);p((unsigned char)511);
p((short)32767);p((short)32768);p((short)65535);p((short)65536);
p((unsigned short)65535);p((unsigned short)65536);p((unsigned short)-1);return 0;}
