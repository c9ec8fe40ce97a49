int main(void){free(malloc(1));
malloc(1);return 0;}
