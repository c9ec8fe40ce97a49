int main(void){int*p=0;int i;for(i=0;i<2;i++){int x=65+i;int*r=&x;{int y;int*q=&y;
if(p){putchar(*r);putchar(48+(p==q));return *p;}
p=q;*q=1;continue;}}return 0;}
