char a[16];int main(void){int*q=(int*)((char*)a+(0-(long)a)-2);return *q;}
