char a[6];int main(void){int*p=(int*)(a+2);*p=258;putchar(48+a[2]);putchar(48+a[3]);p=(int*)(a+3);
return *p;}
