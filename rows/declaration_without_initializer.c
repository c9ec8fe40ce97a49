int main(void){int i;int s=0;for(i=0;i<3;i++){int x;int a[1];x=x+1;a[0]=a[0]+1;s=s*10+x+a[0];}return s;}
