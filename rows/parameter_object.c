int f(int a,int b){int*p=&b;*p=*p+1;return a*10+b;}int main(void){return f(2,3);}
