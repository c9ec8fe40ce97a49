#include <stdio.h>
#include <string.h>

static const char password[6] = "s3cret";

int is_right(const char *given, size_t n)
{
    return memcmp(given, password, n) == 0;
}

int main(void)
{
    char given[16] = "s3cret";
    puts(is_right("secret", 6) ? "right" : "wrong");
    puts(is_right(given, sizeof given) ? "right" : "wrong");
    return 0;
}
