int odd(int n);int even(int n){return n==0||odd(n-1);}int odd(int n){return n!=0&&even(n-1);}int main(void){return even(10)*2+odd(7);}
