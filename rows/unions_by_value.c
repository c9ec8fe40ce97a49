union u{int*p;long i;};int z=4;union u f(union u x){x.i=x.i+0;return x;}int main(void){union u v;v.p=&z;return *f(v).p;}
