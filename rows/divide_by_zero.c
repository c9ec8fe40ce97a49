int main(void){int z=0;
putchar(48);z=5
/z;return 0;}
