struct s{int*p;int n;};int a=5;int b=6;struct s pick(int c,struct s x,struct s y){return c?x:y;}
int main(void){struct s u;struct s v;u.p=&a;u.n=1;v.p=&b;v.n=2;struct s w=pick(0,u,v);int t=(1?u:v).n;
return *w.p*10+*pick(1,u,v).p+w.n+t;}
