int x;int main(void){long a=(long)&x;return a>>28;}
