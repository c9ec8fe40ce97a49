struct q{int*p;int n;};struct s{int m;struct q q;};int z=7;struct s f(int n){struct s r;r.m=n;r.q.p=&z;r.q.n=n+1;return r;}
int main(void){struct s v;v=f(3);struct q w=f(4).q;putchar(48+v.m);putchar(48+*v.q.p);putchar(48+w.n);return *w.p+f(5).m+f(6).q.n;}
