int main(void){int i;int s=0;for(i=0;i<3;i++){int a[2]={1};a[1]=a[1]+1;a[0]=a[0]+1;s=s*10+a[0]+a[1];}return s;}
