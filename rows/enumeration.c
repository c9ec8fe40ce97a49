enum e{A,B=5,C};int main(void){enum e x=C;return x*10+A+B;}
