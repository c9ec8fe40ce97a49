int main(void){{char a[4096];a[0]=65;putchar(a[0]);}{char b[4096];putchar(66+b[0]);}return 0;}
