#include <stdio.h>

struct device { void (*open)(void); void (*close)(void); };

static void opened(void)
{
    puts("open");
}

int main(void)
{
    struct device d = {opened, NULL};
    d.open();
    d.close();
    return 0;
}
