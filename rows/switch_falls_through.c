int main(void){int i=2;switch(i){case 1:putchar(65);case 2:putchar(66);case 3:putchar(67);break;default:putchar(68);}return 0;}
