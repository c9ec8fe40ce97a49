int main(void){
putchar(65);for
(int a[2000];;){a[0]=1;return 0;}}
