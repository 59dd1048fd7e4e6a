/* What a program needs of the machine it runs on: a board in qemu (board.c), or this one (host.c). */
#ifndef BOARD_H
#define BOARD_H

#include <stddef.h>
#include <stdint.h>

void print(const char *words);

static inline void print_number(uint64_t number)
{
    char digits[21];
    char *first = digits + 20;
    *first = 0;
    do {
        *--first = (char)('0' + number % 10);
        number /= 10;
    } while (number != 0);
    print(first);
}

#endif
