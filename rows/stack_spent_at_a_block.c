int main(void){putchar(65);
{char b[5000];b[0]=1;}
return 0;}
