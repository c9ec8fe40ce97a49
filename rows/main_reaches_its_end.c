int main(void){int x=3;putchar(48+x);}
