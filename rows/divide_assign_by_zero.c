int main(void){int a[1];int z=0;a[0]=7;
a[0]
%=z;return 0;}
