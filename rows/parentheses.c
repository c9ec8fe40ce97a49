int main(void){int x;(x)=((2));((x))+=1;return (x)+x;}
