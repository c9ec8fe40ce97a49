int main(void){int i=1;int a[1];a[0]=2;i++;--(i);a[0]++;return i+a[0];}
