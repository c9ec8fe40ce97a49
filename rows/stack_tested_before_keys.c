int main(void){int x;int*p=&x;
{char b[5000];b[0]=1;}return 0;}
