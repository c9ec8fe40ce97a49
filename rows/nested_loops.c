int main(void){int i;int j;for(i=0;i<4;i++){if(i==1)continue;for(j=0;;j++){if(j==3)break;if(j==1)continue;putchar(48+i*3+j);}if(i==2)break;}
while(1){do{if(i<5){i++;continue;}break;}while(1);putchar(65+i);switch(i){case 5:i=9;continue;}break;}
do putchar(46);while(i--<0);return i;}
