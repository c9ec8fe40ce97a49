int main(void){char*p=malloc(2);free(p);return p[2];}
