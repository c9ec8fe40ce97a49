int main(void){for(;;)putchar(65);}
