int main(void){return calloc(1UL<<63,2)==0;}
