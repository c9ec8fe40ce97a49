int main(void){char s[4]="hi";int a[2]={[1]=7};return s[1]+a[0];}
