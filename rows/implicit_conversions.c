char c;int main(void){long l=1;c=l;l=c+2U;return l<c;}
