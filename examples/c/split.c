/*
 * split FOLDER FIRST_HALF FIRST SECOND: splits the network.tsv and the plan.tsv of a folder between two boxes, by the set of
 * the links in the first half, bit i - 1 for link i, and writes both texts of each half into a folder that is there. A
 * refusal goes to the standard error.
 *
 * Exit status: 0 written, 1 refused, 2 a file cannot be read or written.
 */
#include "plancheck.h"

#include <inttypes.h>
#include <stdio.h>
#include <stdlib.h>

static uint8_t network[PLANCHECK_NETWORK_TEXT_MAX + 1], plan[PLANCHECK_PLAN_TEXT_MAX + 1];
static uint8_t network_1[PLANCHECK_NETWORK_TEXT_MAX], plan_1[PLANCHECK_PLAN_TEXT_MAX];
static uint8_t network_2[PLANCHECK_NETWORK_TEXT_MAX], plan_2[PLANCHECK_PLAN_TEXT_MAX];

static FILE *open_file(const char *folder, const char *name, const char *mode)
{
    char path[4096];
    int length = snprintf(path, sizeof path, "%s/%s", folder, name);
    return length > 0 && (size_t)length < sizeof path ? fopen(path, mode) : NULL;
}

/* Reads a whole file of at most so many bytes; a longer one is no valid text. */
static int read_file(const char *folder, const char *name, uint8_t *bytes, size_t size, size_t *length)
{
    FILE *file = open_file(folder, name, "rb");
    if (file == NULL)
        return 0;
    *length = fread(bytes, 1, size, file);
    int whole = *length < size && !ferror(file);
    fclose(file);
    return whole;
}

static int write_file(const char *folder, const char *name, const uint8_t *bytes, size_t length)
{
    FILE *file = open_file(folder, name, "wb");
    if (file == NULL)
        return 0;
    size_t written = fwrite(bytes, 1, length, file);
    return fclose(file) == 0 && written == length;
}

int main(int count, char **arguments)
{
    if (count != 5) {
        fprintf(stderr, "usage: split FOLDER FIRST_HALF FIRST SECOND\n");
        return 2;
    }
    const char *first = arguments[3], *second = arguments[4];
    size_t network_len, plan_len;
    if (!read_file(arguments[1], "network.tsv", network, sizeof network, &network_len) ||
        !read_file(arguments[1], "plan.tsv", plan, sizeof plan, &plan_len)) {
        fprintf(stderr, "a file cannot be read, or is longer than a valid text\n");
        return 2;
    }
    uint32_t first_half = (uint32_t)strtoul(arguments[2], NULL, 0);
    plancheck_split_result result =
        plancheck_split(network, network_len, plan, plan_len, first_half, network_1, sizeof network_1, plan_1,
                        sizeof plan_1, network_2, sizeof network_2, plan_2, sizeof plan_2);
    if (result.number != PLANCHECK_OK) {
        fprintf(stderr, "refusal %" PRIu32 ", line %" PRIu32 ", item %" PRIu32 "\n", result.number, result.line,
                result.item);
        return 1;
    }
    if (!write_file(first, "network.tsv", network_1, result.network_1) ||
        !write_file(first, "plan.tsv", plan_1, result.plan_1) ||
        !write_file(second, "network.tsv", network_2, result.network_2) ||
        !write_file(second, "plan.tsv", plan_2, result.plan_2)) {
        fprintf(stderr, "a file cannot be written\n");
        return 2;
    }
    return 0;
}
