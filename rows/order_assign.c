int a[10];int main(void){int i=0;a[i]=(i=9);return a[0]*10+a[9];}
