struct p{int*a;int b;};int z=6;struct p mk(int k){struct p r;r.a=&z;r.b=k;return r;}int use(struct p q){q.b=q.b+*q.a;return q.b;}
int main(void){struct p v=mk(1);int t=use(v);return t*10+v.b;}
