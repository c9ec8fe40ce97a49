int*f(int n){int x=1;int*p=&x;{int y=2;p=&y;{int z=3;int*q=&z;if(n)return q;return p;}}}
int main(void){int*p=f(1);int*q=f(0);putchar(65);
return *q;}
