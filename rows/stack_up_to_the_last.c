int f(int n){char b[2048];b[0]=n;if(n)return f(n-1)+1;return b[0];}int main(void){return f(1)+f(1);}
