int a[4];int b[4];int main(void){int*p=a;p[4]=1;return 0;}
