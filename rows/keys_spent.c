int main(void){malloc(1);
malloc(1);
malloc(1);return 0;}
