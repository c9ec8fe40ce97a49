int main(void){char b[5000];b[0]=1;return b[0];}
