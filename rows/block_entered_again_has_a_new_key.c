int main(void){int*p=0;int i;for(i=0;i<2;i++){int x;
if(p==&x){putchar(61);return *p;}
x=5;p=&x;}return 0;}
