int f(int n){char b[2041];b[0]=n;if(n)return f(n-1)+1;return b[0];}int main(void){char c;char*p=&c;*p=1;return f(1)+*p;}
