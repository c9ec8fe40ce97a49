int main(void){char*p=malloc(8);free(p);free(p);return 0;}
