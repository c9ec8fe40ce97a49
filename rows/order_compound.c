int a[2];int f(void){a[0]=a[0]+20;return 3;}int main(void){int i=1;a[0]=1;a[0]+=f();i+=(i=5);return a[0]+i*10;}
