int main(void){int m=-2147483647-1;int d=-1;putchar(m/d==m?'W':'X');d=0;return m%d;}
