int g(int*p){int a=*p;free(p);return a+*p;}int main(void){return g(malloc(4));}
