int x=5;int main(void){int*p=&x;int**q=&p;int*h=(int*)q;h[0]=h[0]+4;putchar(48+(p==&x+1));h[0]=h[0]-4;return *p;}
