int x=1;int main(void){int**p=malloc(8);*p=&x;putchar(48+**p);free(p);p=malloc(8);return **p;}
