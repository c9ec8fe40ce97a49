struct p{int*a;int b;};int z=7;int main(void){struct p u;struct p v;u.a=&z;u.b=1;v=u;return *v.a+v.b;}
