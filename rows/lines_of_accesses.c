struct s{int n[2];}v;int main(void){struct s*p=&v;int i=2;
(p->n
[i]
)=putchar(65)
;return 0;}
