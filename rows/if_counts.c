int main(void){int x=2;if(x)x=x+1;else{x=9;}if(0);else x=5;if(!x);return x;}
