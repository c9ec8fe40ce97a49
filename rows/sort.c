int a[7]={5,2,7,1,6,3,4};void sort(int*p,int n,int(*before)(int,int)){int i;int j;
for(i=1;i<n;i++)for(j=i;j>0&&before(p[j],p[j-1]);j--){int t=p[j];p[j]=p[j-1];p[j-1]=t;}}
int less(int x,int y){return x<y;}int greater(int x,int y){return x>y;}
int main(void){int i;sort(a,7,less);for(i=0;i<7;i++)putchar(48+a[i]);sort(a+1,5,greater);for(i=0;i<7;i++)putchar(48+a[i]);return 0;}
