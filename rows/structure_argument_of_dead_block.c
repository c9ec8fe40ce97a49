struct s{int a[4];};int f(struct s x){return x.a[3];}int main(void){struct s*p=malloc(16);free(p);
return f(
*p);}
