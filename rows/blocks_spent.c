int main(void){char*p=malloc(1);char*q=malloc(1);putchar(48+(q==0));free(p);q=malloc(1);*q=3;return *q;}
