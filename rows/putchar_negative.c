int main(void){return putchar(-1)==255;}
