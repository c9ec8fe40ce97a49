int a[3];int main(void){int*p=&a[3];int*q=&*p;putchar(48+(q-a));q=a-1;return q[1]+(&p[-1]==a+2);}
