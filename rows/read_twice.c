int f(int*p){return *p+*p;}
int main(void){int x=4;return f(&x);}
