int f(int n){int x[1];x[0]=n;putchar(46);return x[0];}int main(void){int i;for(i=0;i<3;i++)f(i);return 0;}
