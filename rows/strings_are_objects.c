int main(void){char*s="ab";char*t="ab";s[0]=99;putchar(s[0]);putchar(t[0]);putchar(48+(s==t));return s[3];}
