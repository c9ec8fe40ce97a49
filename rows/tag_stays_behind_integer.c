int x=5;int main(void){int*a[1];long*l=(long*)a;a[0]=&x;*l=*l;return *a[0];}
