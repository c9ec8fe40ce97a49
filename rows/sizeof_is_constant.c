int f(void){putchar(65);return 1;}int main(void){char s[3];return sizeof(f())+sizeof s+sizeof "abcd"+sizeof(long[4]);}
