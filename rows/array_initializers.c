int a[6]={[2]=3,4,[0]=1};char s[4]="abc";char t[]="xy";char u[3]={"pqr"};int m[2][3]={{1},{4,5}};int n[2][2]={1,2,3};
int main(void){int b[4]={[1]=a[2],a[3]};char v[5]="hi";char w[2][3]={"no",{'u'}};int i;
for(i=0;i<6;i++)putchar(48+a[i]);for(i=0;i<4;i++)putchar(48+b[i]);
for(i=0;i<6;i++)putchar(48+m[i/3][i%3]);for(i=0;i<4;i++)putchar(48+n[i/2][i%2]);
for(i=0;i<3;i++){putchar(s[i]);putchar(u[i]);}
putchar(w[0][0]);putchar(w[0][1]);putchar(48+w[0][2]);putchar(w[1][0]);putchar(48+w[1][1]);
putchar(v[1]);putchar(48+v[2]+v[4]);return sizeof t+t[0]+s[3];}
