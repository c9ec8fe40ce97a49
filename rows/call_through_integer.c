int f(void){return 1;}int main(void){int(*g)(void)=(int(*)(void))(long)f;
return g();}
