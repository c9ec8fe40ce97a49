int a(void){return 1;}int b(void){return 2;}int(*p)(void)=*a,(*q)(void)=&**b,(*t[2])(void)={(*b),**a};int main(void){return p()*27+q()*9+t[0]()*3+t[1]();}
