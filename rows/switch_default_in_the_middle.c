int f(int n){int r=0;switch(n){case 1:r=r+1;break;default:r=r+2;case 3:r=r+4;break;case 4:case 5:r=r+8;}return r;}
int main(void){int i;for(i=0;i<7;i++)putchar(48+f(i));return 0;}
