int f(void){putchar(65);return 3;}int main(void){int x;(void)f();x=(f(),f()+1);return x;}
