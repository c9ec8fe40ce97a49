int s(int a,int b){return a-b;}
int(*g(void))(int,int){putchar(71);return s;}
int main(void){s(putchar(65),putchar(66));return g()(putchar(67)+3,putchar(68));}
