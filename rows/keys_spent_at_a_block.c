int main(void){int x;int*p=&x;
putchar(65);

{int y;int*q=&y;*q=1;}
return 0;}
