int f(int c){putchar(c);return c-64;}
int main(void){int r=f(65)+f(66)*f(67);(f(68),f(69));if(f(70)&&!f(71)&&f(72))f(73);if(f(64)||f(74))f(75);return r+(f(76)?f(77):f(78));}
