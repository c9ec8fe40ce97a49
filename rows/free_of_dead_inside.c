int main(void){char*p=malloc(8);free(p);
free(p+1);return 0;}
