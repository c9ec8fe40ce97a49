int x;int main(void){free(&x);return 0;}
