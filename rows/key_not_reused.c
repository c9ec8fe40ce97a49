int main(void){
char*p=malloc(16);free(p);char*q=malloc(16);
if(p==q)putchar('=');*q=1;*p=2;return 0;}
