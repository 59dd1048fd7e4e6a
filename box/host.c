/* Words on this machine. */
#include "board.h"

#include <stdio.h>

void print(const char *words)
{
    fputs(words, stdout);
}
