int main(void){int(*h)(int)=0;return h(putchar(65));}
