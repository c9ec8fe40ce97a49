struct s{int*p;};int z=7;char b[32];struct s id(struct s x){return x;}
int main(void){struct s u;struct s*q=(struct s*)(b+4);u.p=&z;*q=u;putchar(48+*id(u).p);
return *id(*q).p;}
