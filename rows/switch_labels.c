int main(void){switch(2){case 1:case 2:case 3:putchar(65);default:;}return 0;}
