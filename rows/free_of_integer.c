int main(void){char*p=malloc(8);free((void*)(long)p);return 0;}
