int a[4];int main(void){int i=0;a[i]=(i=9);return a[i];}
