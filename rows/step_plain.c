int main(void){int i=5;unsigned char c=255;int*p=0;putchar(48+i++);putchar(48+i);putchar(48+ ++i);putchar(48+i--);putchar(48+ --i);putchar(48+c++);putchar(48+c--);p++;return c+(long)p;}
