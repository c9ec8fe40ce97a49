int main(void){int i;for(i=0;i<3;i++);while(i)i--;do;while(0);while(0);return i;}
