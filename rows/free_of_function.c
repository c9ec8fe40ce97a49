int main(void){free((void*)main);return 0;}
