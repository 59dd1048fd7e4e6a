/*
 * judge FOLDER: judges the network.tsv and plan.tsv of a folder with the plan check library. Prints the answer as the
 * program plancheck does, fields parted by tabs: A and the four totals, or R, number, line and item. Then the totals, the
 * ledger and the state of each link at the end, or the refusal in words.
 *
 * Exit status: 0 accepted, 1 refused, 2 a file cannot be read or is too long.
 */
#include "plancheck.h"
#include "plancheck_words.h"

#include <inttypes.h>
#include <stdio.h>

/* One byte more than a text that passes may have: it shows a text that is too long, or ends it. */
static uint8_t network[PLANCHECK_NETWORK_TEXT_MAX + 1];
static uint8_t plan[PLANCHECK_PLAN_TEXT_MAX + 1];
static uint32_t ledger[PLANCHECK_LEDGER_MAX];

static void print_refusal(uint32_t number, uint32_t line, uint32_t item)
{
    const plancheck_words *words = plancheck_words_of(number);
    printf("R\t%" PRIu32 "\t%" PRIu32 "\t%" PRIu32 "\n", number, line, item);
    if (words == NULL) {
        printf("refusal %" PRIu32 ", line %" PRIu32 ", item %" PRIu32 "\n", number, line, item);
        return;
    }
    printf("refusal %" PRIu32, number);
    if (words->line != PLANCHECK_LINE_NONE)
        printf(", line %" PRIu32 " of the %s", line, plancheck_line_word(words->line));
    if (words->item != PLANCHECK_ITEM_NONE)
        printf(", %s %" PRIu32, plancheck_item_word(words->item), item);
    printf(": %s; keep the running plan, and tell %s\n", words->meaning, words->tell);
}

/* Volumes are in thousandths of a vehicle. */
static void print_volume(const char *name, uint64_t volume)
{
    printf("%-20s %10" PRIu64 ".%03" PRIu64 " vehicles\n", name, volume / 1000, volume % 1000);
}

static void print_totals(const plancheck_plan_result *totals)
{
    printf("A\t%" PRIu64 "\t%" PRIu64 "\t%" PRIu64 "\t%" PRIu64 "\n", totals->admitted, totals->let_out, totals->inside,
           totals->doubled_time);
    print_volume("admitted", totals->admitted);
    print_volume("let out", totals->let_out);
    print_volume("inside at the end", totals->inside);
    /* Half of a thousandth is five in ten thousand. */
    uint64_t travel_time = 5 * totals->doubled_time;
    printf("%-20s %10" PRIu64 ".%04" PRIu64 " vehicle seconds\n", "travel time", travel_time / 10000,
           travel_time % 10000);
}

/* The links that a line of a terminal has room for. */
#define LINKS_A_LINE 3

/* A line for each boundary: what has entered and what has left each link by then, in thousandths of a vehicle. */
static void print_ledger(uint32_t links, uint32_t steps)
{
    printf("\nby each boundary, in thousandths of a vehicle\n");
    for (uint32_t first = 0; first < links; first += LINKS_A_LINE) {
        uint32_t last = links - first < LINKS_A_LINE ? links : first + LINKS_A_LINE;
        printf("\n        ");
        for (uint32_t i = first; i < last; i++)
            printf("%17s %2" PRIu32, "link", i + 1);
        printf("\nboundary");
        for (uint32_t i = first; i < last; i++)
            printf("%10s%10s", "entered", "left");
        printf("\n");
        for (uint32_t n = 0; n <= steps; n++) {
            const uint32_t *row = ledger + 2 * (size_t)n * links;
            printf("%8" PRIu32, n);
            for (uint32_t i = first; i < last; i++)
                printf("%10" PRIu32 "%10" PRIu32, row[2 * i], row[2 * i + 1]);
            printf("\n");
        }
    }
}

static void print_states(size_t network_len, uint32_t links, uint32_t steps)
{
    printf("\nat the end, in thousandths of a vehicle\n");
    for (uint32_t i = 1; i <= links; i++) {
        plancheck_link_result state =
            plancheck_link_state(network, network_len, ledger, PLANCHECK_LEDGER_MAX, steps, i);
        if (state.number != PLANCHECK_OK)
            print_refusal(state.number, state.line, state.item);
        else
            printf("link %2" PRIu32 ": %8" PRIu32 " queued, %8" PRIu32 " in transit\n", i, state.queued,
                   state.in_transit);
    }
}

/* Reads a whole file; false if it cannot be read or does not leave a byte of the buffer free. */
static int read_file(const char *folder, const char *name, uint8_t *buffer, size_t size, size_t *length)
{
    char path[4096];
    int path_length = snprintf(path, sizeof path, "%s/%s", folder, name);
    if (path_length < 0 || (size_t)path_length >= sizeof path)
        return 0;
    FILE *file = fopen(path, "rb");
    if (file == NULL)
        return 0;
    *length = fread(buffer, 1, size, file);
    int complete = !ferror(file) && *length < size;
    fclose(file);
    return complete;
}

int main(int count, char **arguments)
{
    if (count != 2) {
        fprintf(stderr, "usage: judge FOLDER\n");
        return 2;
    }
    if (plancheck_version().major != PLANCHECK_VERSION_MAJOR) {
        fprintf(stderr, "the library is of another major version than the header\n");
        return 2;
    }
    size_t network_len, plan_len;
    if (!read_file(arguments[1], "network.tsv", network, sizeof network, &network_len)) {
        fprintf(stderr, "network.tsv cannot be read, or is longer than %d bytes\n", PLANCHECK_NETWORK_TEXT_MAX);
        return 2;
    }
    if (!read_file(arguments[1], "plan.tsv", plan, sizeof plan, &plan_len)) {
        fprintf(stderr, "plan.tsv cannot be read, or is longer than %d bytes\n", PLANCHECK_PLAN_TEXT_MAX);
        return 2;
    }

    plancheck_plan_result result =
        plancheck_check_plan(network, network_len, plan, plan_len, ledger, PLANCHECK_LEDGER_MAX);
    if (result.number != PLANCHECK_OK) {
        print_refusal(result.number, result.line, result.item);
        return 1;
    }
    print_totals(&result);
    plancheck_counts_result counts = plancheck_network_counts(network, network_len);
    print_ledger(counts.links, counts.steps);
    print_states(network_len, counts.links, counts.steps);
    return 0;
}
