int main(void){char*p=malloc(2);free(p);printf("a%s",p);return 0;}
