/*
 * carry NETWORK BOUNDARY PLAN: writes the network text from a boundary on to the standard output, after a plan of as many
 * lines has run, or the refusal to the standard error.
 *
 * Exit status: 0 written, 1 refused, 2 a file cannot be read or the text cannot be written.
 */
#include "plancheck.h"

#include <inttypes.h>
#include <stdio.h>
#include <stdlib.h>

static uint8_t network[PLANCHECK_NETWORK_TEXT_MAX + 1];
static uint8_t plan[PLANCHECK_PLAN_TEXT_MAX + 1];
static uint32_t ledger[PLANCHECK_LEDGER_MAX];
static uint8_t carried[PLANCHECK_NETWORK_TEXT_MAX];

/* Reads a whole file of at most so many bytes; a longer one is no valid text. */
static int read_file(const char *path, uint8_t *bytes, size_t size, size_t *length)
{
    FILE *file = fopen(path, "rb");
    if (file == NULL)
        return 0;
    *length = fread(bytes, 1, size, file);
    int whole = *length < size && !ferror(file);
    fclose(file);
    return whole;
}

int main(int count, char **arguments)
{
    if (count != 4) {
        fprintf(stderr, "usage: carry NETWORK BOUNDARY PLAN\n");
        return 2;
    }
    size_t network_len, plan_len;
    if (!read_file(arguments[1], network, sizeof network, &network_len) ||
        !read_file(arguments[3], plan, sizeof plan, &plan_len)) {
        fprintf(stderr, "a file cannot be read, or is longer than a valid text\n");
        return 2;
    }
    uint32_t boundary = (uint32_t)strtoul(arguments[2], NULL, 10);
    plancheck_text_result result = plancheck_carry_on(network, network_len, boundary, plan, plan_len, ledger,
                                                      PLANCHECK_LEDGER_MAX, carried, sizeof carried);
    if (result.number != PLANCHECK_OK) {
        fprintf(stderr, "refusal %" PRIu32 ", line %" PRIu32 ", item %" PRIu32 "\n", result.number, result.line,
                result.item);
        return 1;
    }
    return fwrite(carried, 1, result.length, stdout) == result.length && fflush(stdout) == 0 ? 0 : 2;
}
