int f(void){int a[1];int b[2];a[0]=3;b[1]=4;return a[0]+b[1];}int main(void){char*p=malloc(1);*p=1;return *p+f();}
