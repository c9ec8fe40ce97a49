struct s{int*a;};struct s f(void){int x=1;struct s r;r.a=&x;return r;}
int main(void){return *f().a;}
