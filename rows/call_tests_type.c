int f(int n){int a[2000];return n;}int main(void){int(*g)(void)=(int(*)(void))f;putchar(65);
return g
();}
