int f(int x){return x;}int main(void){void(*g)(void)=(void(*)(void))f;g();return 0;}
