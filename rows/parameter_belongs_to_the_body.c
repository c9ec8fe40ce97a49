int f(int x){int*p=&x;{int y=1;int*q=&y;*q=2;}*p=*p+1;return x;}int main(void){return f(6);}
