int main(void){putchar(65);
abort();}
