int main(void){exit(-1);return 3;}
