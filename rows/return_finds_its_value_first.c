int f(void){int x=1;int*p=&x;{int y=2;int*q=&y;return *p+*q;}}int main(void){return f()+f();}
