int main(void){int*p;int i;for(i=0;i<2;i++){int x=i;p=&x;{int y=7;int*q=&y;*q=1;break;}}
putchar(65);
return *p;}
