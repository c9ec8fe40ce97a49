int main(void){return (long)main>>16;}
