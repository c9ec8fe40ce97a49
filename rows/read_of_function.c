int main(void){char*p=(char*)main;return *p;}
