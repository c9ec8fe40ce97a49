struct s{int*p;};int x=66;int main(void){struct s a;char b[24];struct s*q=(struct s*)(b+8);struct s*r=(struct s*)(b+4);a.p=&x;
*q=a;putchar(*q->p);*r=*q;a.p=0;a=*r;putchar(48+(a.p==&x));
return *a.p;}
