int main(void){switch(3L){case 1:case 2:putchar(65);case 4:putchar(66);}return 0;}
