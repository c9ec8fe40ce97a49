int main(void){int*p=malloc(4);*p=1;
*p+=(free(p),1);return 0;}
