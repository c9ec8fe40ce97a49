struct s{int m[2];}x;int a[2];int main(void){int i;int*p;(i)=1;(a)[(i)]=2;(x).m[0]=3;(x.m)[1]=4;p=&(i);(*p)++;((i))+=1;putchar(48+i);p=&(a)[0];return (p)[1]+*(&x.m[1])*10+(x.m[0]);}
