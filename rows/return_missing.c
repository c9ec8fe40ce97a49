int*f(int n){if(n)return 0;}int main(void){putchar(48+(f(0)==0));*f(0)=1;}
