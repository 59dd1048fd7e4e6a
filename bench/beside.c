/*
 * One of the calls beside the plan check, to be measured.
 *
 * beside call CALL FILE..     makes the call once and prints its answer (run it under callgrind)
 * beside stack CALL FILE..    prints the bytes of stack that the call uses
 *
 * CALL and its files:
 *     network_counts NETWORK
 *     carry_on NETWORK PLAN                        from the boundary behind the plan's last line
 *     plan_from_listing NETWORK LISTING
 *     check_sheet NETWORK PLAN SHEET
 *     plan_from_sheet NETWORK SHEET
 *     compare_plans NETWORK FIRST SECOND
 *     split NETWORK PLAN                           links 1 to 12 are the first half
 *     run_cells CORRIDOR
 *     step_vehicles PLACES ADVANCES RED_LINES      doubles in the machine's order
 */
#define _XOPEN_SOURCE 700
#include "painted_stack.h"
#include "plancheck.h"

#include <inttypes.h>

enum { MAX_FILES = 3 };

static const double SPACING = 7.5;

static struct text texts[MAX_FILES];
static uint8_t plan[PLANCHECK_WRITTEN_PLAN_MAX];
static uint8_t carried[PLANCHECK_NETWORK_TEXT_MAX];
static uint8_t network_1[PLANCHECK_NETWORK_TEXT_MAX], plan_1[PLANCHECK_PLAN_TEXT_MAX];
static uint8_t network_2[PLANCHECK_NETWORK_TEXT_MAX], plan_2[PLANCHECK_PLAN_TEXT_MAX];
static uint32_t ledger[PLANCHECK_LEDGER_MAX];
static double places[PLANCHECK_MAX_VEHICLES];
static double advances[PLANCHECK_MAX_VEHICLES];
static double red_lines[PLANCHECK_MAX_RED_LINES];
static uint32_t ledger[PLANCHECK_LEDGER_MAX];
static uint32_t second_ledger[PLANCHECK_LEDGER_MAX];
static plancheck_counts_result counted;
static plancheck_text_result written;
static plancheck_plan_result judged;
static plancheck_comparison_result compared;
static plancheck_split_result halved;
static plancheck_cells_result ran;
static plancheck_network_result stepped;

static void nothing(void)
{
}

static void network_counts(void)
{
    counted = plancheck_network_counts(texts[0].bytes, texts[0].length);
}

static void carry_on(void)
{
    uint32_t boundary = 0;
    for (size_t i = 0; i < texts[1].length; i++)
        boundary += texts[1].bytes[i] == '\n';
    written = plancheck_carry_on(texts[0].bytes, texts[0].length, boundary, texts[1].bytes, texts[1].length, ledger,
                                 PLANCHECK_LEDGER_MAX, carried, sizeof carried);
}

static void plan_from_listing(void)
{
    written = plancheck_plan_from_listing(texts[0].bytes, texts[0].length, texts[1].bytes, texts[1].length, plan,
                                          sizeof plan);
}

static void check_sheet(void)
{
    judged = plancheck_check_sheet(texts[0].bytes, texts[0].length, texts[1].bytes, texts[1].length, texts[2].bytes,
                                   texts[2].length, ledger, PLANCHECK_LEDGER_MAX);
}

static void plan_from_sheet(void)
{
    written = plancheck_plan_from_sheet(texts[0].bytes, texts[0].length, texts[1].bytes, texts[1].length, plan,
                                        sizeof plan);
}

static void compare_plans(void)
{
    compared = plancheck_compare_plans(texts[0].bytes, texts[0].length, texts[1].bytes, texts[1].length, texts[2].bytes,
                                       texts[2].length, ledger, PLANCHECK_LEDGER_MAX, second_ledger,
                                       PLANCHECK_LEDGER_MAX);
}

static void split(void)
{
    halved = plancheck_split(texts[0].bytes, texts[0].length, texts[1].bytes, texts[1].length, 0xfff, network_1,
                             sizeof network_1, plan_1, sizeof plan_1, network_2, sizeof network_2, plan_2,
                             sizeof plan_2);
}

static void run_cells(void)
{
    ran = plancheck_run_cells(texts[0].bytes, texts[0].length);
}

/* The numbers of a file; as many as there is room for. */
static size_t doubles_of(const struct text *text, double *values, size_t size)
{
    size_t length = text->length < size ? text->length : size;
    memcpy(values, text->bytes, length);
    return length / sizeof *values;
}

static void step_vehicles(void)
{
    size_t vehicles = doubles_of(&texts[0], places, sizeof places);
    size_t advancing = doubles_of(&texts[1], advances, sizeof advances);
    size_t lines = doubles_of(&texts[2], red_lines, sizeof red_lines);
    stepped = plancheck_step_vehicles(places, vehicles, advances, advancing, red_lines, lines, SPACING);
}

static const struct measured {
    const char *name;
    int files;
    void (*call)(void);
    const uint32_t *number, *line, *item;
} CALLS[] = {
    {"network_counts", 1, network_counts, &counted.number, &counted.line, &counted.item},
    {"carry_on", 2, carry_on, &written.number, &written.line, &written.item},
    {"plan_from_listing", 2, plan_from_listing, &written.number, &written.line, &written.item},
    {"check_sheet", 3, check_sheet, &judged.number, &judged.line, &judged.item},
    {"plan_from_sheet", 2, plan_from_sheet, &written.number, &written.line, &written.item},
    {"compare_plans", 3, compare_plans, &compared.number, &compared.line, &compared.item},
    {"split", 2, split, &halved.number, &halved.line, &halved.item},
    {"run_cells", 1, run_cells, &ran.number, &ran.line, &ran.item},
    {"step_vehicles", 3, step_vehicles, &stepped.number, &stepped.line, &stepped.item},
};

/* Bytes below the caller's stack pointer, the return address included: what the call takes beyond a function that does
   nothing. */
static size_t stack_of(void (*call)(void))
{
    call();
    return painted_stack_used(call) - painted_stack_used(nothing);
}

static const struct measured *measured_of(int count, char **arguments)
{
    for (size_t i = 0; i < sizeof CALLS / sizeof *CALLS; i++)
        if (count == 3 + CALLS[i].files && strcmp(arguments[2], CALLS[i].name) == 0)
            return &CALLS[i];
    fail("usage: beside call|stack CALL FILE..");
    return NULL;
}

int main(int count, char **arguments)
{
    const struct measured *measured = measured_of(count, arguments);
    for (int i = 0; i < measured->files; i++)
        read_file(arguments[3 + i], &texts[i]);
    if (strcmp(arguments[1], "stack") == 0) {
        printf("%zu\n", stack_of(measured->call));
    } else {
        measured->call();
        printf("%" PRIu32 " %" PRIu32 " %" PRIu32 "\n", *measured->number, *measured->line, *measured->item);
    }
    return 0;
}
