int z;int main(void){return 1/z;}
