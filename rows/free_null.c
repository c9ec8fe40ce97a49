int main(void){free(0);return 0;}
