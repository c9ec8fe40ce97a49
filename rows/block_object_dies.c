int main(void){int*p;int s;{int x=5;p=&x;s=*p;}return s+*p;}
