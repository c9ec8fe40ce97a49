int x=7;int main(void){int i;int r=0;for(i=0;i<2;i++){int*a[2]={i?0:&x};if(i==0)r=*a[0];else r=r+*a[0];}return r;}
