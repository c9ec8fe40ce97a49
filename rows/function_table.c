int a(void){return 1;}int b(void){return 2;}int(*t[2])(void)={a,b};int main(void){return t[0]()*10+t[1]();}
