#include <stdio.h>
#include <string.h>

void cut(char *pair)
{
    char *equals = strchr(pair, '=');
    *equals = '\0';
    puts(pair);
}

int main(void)
{
    char good[] = "key=value", bad[] = "keyvalue";
    cut(good);
    cut(bad);
    return 0;
}
