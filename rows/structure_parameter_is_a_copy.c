struct s{int n;int*p;};int z=1;int f(struct s x){x.n=9;*x.p=x.n;x.p=&x.n;return *x.p;}int main(void){struct s v;v.n=2;v.p=&z;int t=f(v);return t*10+v.n+*v.p;}
