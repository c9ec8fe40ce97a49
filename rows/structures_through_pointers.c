struct s{int n;int*p;};int z=8;struct s f(struct s x,int k){x.n=x.n+k;return x;}int main(void){struct s(*g)(struct s,int)=f;struct s v;v.n=1;v.p=&z;v=g(g(v,2),3);return v.n*10+*v.p;}
