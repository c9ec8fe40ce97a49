int*f(void){int x=5;return &x;}
int main(void){return *f();}
