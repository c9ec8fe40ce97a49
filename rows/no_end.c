int main(void){for(;;);}
