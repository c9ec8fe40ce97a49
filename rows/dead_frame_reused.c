int*g;int f(int n){int x=n;g=&x;return x;}int h(int n){int y=n;int*p=&y;putchar(48+(p==g));return *p;}int main(void){f(3);putchar(48+h(4));return *g;}
