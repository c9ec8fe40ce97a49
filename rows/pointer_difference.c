void h(unsigned long v){if(v>15)h(v>>4);putchar("0123456789abcdef"[v&15]);}
void p(unsigned long v){h(v);putchar(32);}
int a[8];int main(void){int*q=(int*)((char*)a+7);long*r=(long*)((char*)a+15);
p(a+5-a);p(a-(a+5));p(q-a);p(a-q);p(r-(long*)a);p((long*)a-r);p((char*)q-(char*)a);p(&a[3]-&a[1]);return 0;}
