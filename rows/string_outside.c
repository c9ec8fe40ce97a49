int main(void){char*s="abc";putchar(s[0]);putchar(48+s[3]);
putchar(s[4]);return 0;}
