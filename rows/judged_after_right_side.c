int main(void){int*p=malloc(4);int v=*p+(free(p),65);putchar(v);p=malloc(4);
*p=(free(p),1);return 0;}
