int main(void){int c;while((c=getchar())!=-1)putchar(c);return 0;}
