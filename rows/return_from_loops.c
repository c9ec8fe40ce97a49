int f(int n){for(int i=0;;i++){while(1){do{switch(i){case 3:return i*n;}}while(0);break;}}}int main(void){return f(7);}
