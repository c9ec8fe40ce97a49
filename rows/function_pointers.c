int add(int a,int b){return a+b;}int(*pick(int n))(int,int){return n?add:0;}
int main(void){int(*f)(int,int)=add;putchar(48+f(1,2));putchar(48+(*f)(2,2));putchar(48+(**&add)(2,3));putchar(48+(add)(3,3));putchar(48+pick(1)(3,4));return (f==&add)+(pick(0)==0);}
