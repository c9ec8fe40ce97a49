int z=9;int main(void){int i;for(i=0;i<2;i++){int a[2];int*q;int**r=&q;
if(i==1){putchar(48+a[0]);putchar(48+(*r==0));return *q;}
a[0]=7;q=&z;}return 0;}
