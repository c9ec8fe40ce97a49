int main(void){char*p=malloc(4096);char*q=malloc(1);if(q==0)putchar('N');free(p);q=malloc(4096);*q=90;putchar(*q);return 0;}
