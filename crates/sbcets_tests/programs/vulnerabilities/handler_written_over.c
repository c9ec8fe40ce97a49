#include <stdio.h>
#include <string.h>

struct request { char line[8]; void (*handle)(const char *); };

static void good(const char *line)
{
    puts(line);
}

int main(void)
{
    struct request r = {"", good};
    static const char attack[] = "AAAAAAAABBBBBBBB";
    strcpy(r.line, "ok");
    r.handle(r.line);
    memcpy(r.line, attack, 16);
    r.handle(r.line);
    return 0;
}
