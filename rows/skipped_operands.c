int main(void){int x=0;x&&x;x||x;x?1:x+1;1&&0;return 0;}
