int main(void){int*p=0;for(int i=0;i<2;i++){int*q=&i;if(p)*p=5;p=q;putchar(48+i);}
return *p;}
