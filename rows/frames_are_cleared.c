int f(int s){int*p[1];int x=1;if(s){p[0]=&x;return *p[0];}return *p[0];}int main(void){putchar(48+f(1));return f(0);}
