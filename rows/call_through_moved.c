int f(void){return 1;}int g(void){return 2;}int main(void){int(*h)(void)=(int(*)(void))((char*)f+16);putchar(48+((long)h==(long)g));return h();}
