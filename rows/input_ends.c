int main(void){int a=getchar();int b=getchar();int c=getchar();return (a==7)+(b==-1)*2+(c==-1)*4;}
