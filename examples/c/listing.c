/*
 * listing NETWORK LISTING: writes the plan text of a solver's listing to the standard output, or the refusal to the
 * standard error.
 *
 * Exit status: 0 written, 1 refused, 2 a file cannot be read or the plan cannot be written.
 */
#include "plancheck.h"

#include <inttypes.h>
#include <stdio.h>
#include <stdlib.h>

/* The bytes of a whole file, to be freed; NULL if it cannot be read. */
static uint8_t *read_file(const char *path, size_t *length)
{
    FILE *file = fopen(path, "rb");
    if (file == NULL)
        return NULL;
    size_t size = 65536;
    uint8_t *bytes = malloc(size);
    *length = 0;
    while (bytes != NULL) {
        *length += fread(bytes + *length, 1, size - *length, file);
        if (*length < size)
            break;
        size *= 2;
        uint8_t *longer = realloc(bytes, size);
        if (longer == NULL)
            free(bytes);
        bytes = longer;
    }
    if (bytes != NULL && ferror(file)) {
        free(bytes);
        bytes = NULL;
    }
    fclose(file);
    return bytes;
}

static uint8_t plan[PLANCHECK_WRITTEN_PLAN_MAX];

int main(int count, char **arguments)
{
    if (count != 3) {
        fprintf(stderr, "usage: listing NETWORK LISTING\n");
        return 2;
    }
    size_t network_len, listing_len;
    uint8_t *network = read_file(arguments[1], &network_len);
    uint8_t *listing = read_file(arguments[2], &listing_len);
    if (network == NULL || listing == NULL) {
        fprintf(stderr, "%s cannot be read\n", network == NULL ? arguments[1] : arguments[2]);
        free(network);
        free(listing);
        return 2;
    }
    plancheck_text_result result =
        plancheck_plan_from_listing(network, network_len, listing, listing_len, plan, sizeof plan);
    free(network);
    free(listing);
    if (result.number != PLANCHECK_OK) {
        /* 22 and 23 are of the listing; the others are of the network, but for 24, which names no line. */
        int is_listing = result.number == PLANCHECK_LISTING_FORM || result.number == PLANCHECK_LISTING_VOLUME;
        fprintf(stderr, "refusal %" PRIu32 ", line %" PRIu32 " of the %s, item %" PRIu32 "\n", result.number, result.line,
                is_listing ? "listing" : "network", result.item);
        return 1;
    }
    return fwrite(plan, 1, result.length, stdout) == result.length && fflush(stdout) == 0 ? 0 : 2;
}
