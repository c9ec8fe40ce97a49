int x=9;int main(void){char b[16];int**q=(int**)(b+1);*q=&x;return **q;}
