int f(void){static int n=5;static char s[]="ab";n++;s[0]++;return n*10+s[0]-97;}int g(void){static int n;return ++n;}
int main(void){static int n=7;f();g();f();g();return f()+g()+n;}
