int main(void){int i;for(i=0;i<3;i++){int a[2];a[0]=i;putchar(65+a[0]+a[1]);}return 0;}
