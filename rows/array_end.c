int a[4];
int main(void){int i;for(i=0;i<=4;i=i+1){a[i]=65+i;putchar(a[i]);}
return 0;}
