int main(void){unsigned char c=250;long l=-1;unsigned u=4000000000U;return (c+10==260)+(l<0)*2+(-1<u)*4;}
