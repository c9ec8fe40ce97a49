int a[2][2];int main(void){a[0][3]=7;return a[1][1];}
