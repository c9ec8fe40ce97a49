int main(void){int*p;switch(2){int x=5;case 1:x=6;
case 2:p=&x;putchar(48+x);}
return *p;}
