struct s{char n[4];int k;}v;int main(void){struct s*p=&v;p->k=1;p->n[3]=2;p->n[4]=3;return 0;}
