int main(void){char d[3];memset(d,65,3);return strlen(d);}
