/* testkit FILE: runs the cases of a text file on a machine with a C library. The exit status is that of testkit_run. */
#include "testkit.h"

#include <stdio.h>

static FILE *cases;

size_t testkit_read(char *bytes, size_t room)
{
    return fread(bytes, 1, room, cases);
}

void testkit_print(const char *words)
{
    fputs(words, stdout);
}

int main(int count, char **arguments)
{
    if (count != 2) {
        fprintf(stderr, "usage: testkit FILE\n");
        return 2;
    }
    cases = fopen(arguments[1], "rb");
    if (cases == NULL) {
        fprintf(stderr, "testkit: %s cannot be read\n", arguments[1]);
        return 2;
    }
    return testkit_run();
}
