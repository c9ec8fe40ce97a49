struct s{char c[2];};struct s f(void){struct s r;return r;}int main(void){return f().c[0];}
