int main(void){return putchar(321)==65;}
