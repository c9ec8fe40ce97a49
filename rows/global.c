int x;int main(void){x=2;return x;}
