int x=5;int main(void){int*p=&x;long a=(long)p;int*q=(int*)(char*)(void*)p;putchar(48+*q);q=(int*)a;return *q;}
