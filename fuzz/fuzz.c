/*
 * fuzz EXAMPLES COUNT SEED: asks every call of the library COUNT times in all, with inputs made from the examples, each buffer between two pages that nothing may
 * touch, and texts that nothing may write. Of every answer it is asked that
 *   - it is the same wherever the buffers stand, and whatever the ledger or the buffer held before;
 *   - its number is one that the call may return, and all else is 0 where it is not 0;
 *   - only the rows of the boundaries that passed, or the bytes of the text that was written, have changed;
 *   - a network that is carried on is valid, and has the steps that are left;
 *   - the halves of a split have what the whole has, and where the whole is accepted both are, and their times add up;
 *   - a plan that is written for a sheet has the masks of the sheet's cycle;
 *   - a plan that is ahead has a negative gap, one that is equal the gap 0, and two plans swapped are compared the other way round.
 * Before that every pointer is NULL once, with length 0.
 */
#include "inputs.h"
#include "plancheck.h"
#include "region.h"

#include <inttypes.h>
#include <sanitizer/common_interface_defs.h>

enum { EXAMPLES = 4, AVENUE = 1, LEDGER_ROOM = 512, BUFFER_ROOM = 8192, DOUBLES_ROOM = 66, HALF_TEXTS = 4 };

static struct example examples[EXAMPLES], splittable, parted;
static struct text corridor, sheet, offsets;

static struct region network_region, text_region, second_region, ledger_region, second_ledger_region, buffer_region, half_regions[HALF_TEXTS], places_region, advances_region, lines_region;

static uint64_t seed, input;

static void tell_input(void)
{
    fprintf(stderr, "fuzz: seed %" PRIu64 ", input %" PRIu64 "\n", seed, input);
}

#define DEMAND(holds)                                                                                                                                          \
    do {                                                                                                                                                       \
        if (!(holds)) {                                                                                                                                        \
            tell_input();                                                                                                                                      \
            stop("does not hold: " #holds);                                                                                                                    \
        }                                                                                                                                                      \
    } while (0)

/* How often each number was returned. */
static uint64_t told[43];

static void count_number(uint32_t number)
{
    DEMAND(number < sizeof told / sizeof told[0] && number != 7);
    told[number]++;
}

static int is_network_number(uint32_t number)
{
    return (number >= 1 && number <= 6) || number == 28 || number == 30;
}

static int is_plan_number(uint32_t number)
{
    return is_network_number(number) || (number >= 8 && number <= 18) || (number >= 25 && number <= 27) || number == 29;
}

/* A network, some with a tram; half of them undamaged, so that a plan is reached. */
static void some_network(const struct example *example, struct text *network)
{
    *network = example->network;
    if (below(4) == 0)
        add_tram(network);
    if (below(2) == 0)
        damage(network);
}

static plancheck_network_result ask_network(const struct text *network, int at_end)
{
    return plancheck_check_network(lend(network_region, network->bytes, network->length, at_end), network->length);
}

static void try_network(void)
{
    static struct text network;
    some_network(&examples[below(EXAMPLES)], &network);
    plancheck_network_result first = ask_network(&network, 1), second = ask_network(&network, 0);
    DEMAND(memcmp(&first, &second, sizeof first) == 0);
    DEMAND(first.number == 0 ? first.line == 0 && first.item == 0 : is_network_number(first.number) && (first.line == 0) == (first.number == PLANCHECK_PAST_VALUES));
    count_number(first.number);
}

static void try_counts(void)
{
    static struct text network;
    some_network(&examples[below(EXAMPLES)], &network);
    plancheck_network_result checked = ask_network(&network, 1);
    plancheck_counts_result counts[2];
    for (int at_end = 0; at_end < 2; at_end++)
        counts[at_end] = plancheck_network_counts(lend(network_region, network.bytes, network.length, at_end), network.length);
    DEMAND(memcmp(&counts[0], &counts[1], sizeof counts[0]) == 0);
    DEMAND(counts[0].number == checked.number && counts[0].line == checked.line && counts[0].item == checked.item);
    if (checked.number == 0) {
        DEMAND(counts[0].links >= 1 && counts[0].links <= PLANCHECK_MAX_LINKS && counts[0].signals <= PLANCHECK_MAX_SIGNALS);
        DEMAND(counts[0].movements <= PLANCHECK_MAX_MOVEMENTS && counts[0].trams <= PLANCHECK_MAX_TRAMS);
        DEMAND(counts[0].steps >= 1 && counts[0].steps + counts[0].past <= PLANCHECK_MAX_STEPS);
    } else {
        DEMAND(counts[0].links == 0 && counts[0].signals == 0 && counts[0].movements == 0);
        DEMAND(counts[0].steps == 0 && counts[0].trams == 0 && counts[0].past == 0);
    }
    count_number(counts[0].number);
}

/* A ledger of so many numbers in a region, each of them `before`. */
static uint32_t *ledger_in(struct region region, size_t numbers, uint32_t before, int at_end)
{
    uint32_t *ledger = place(region, 4 * numbers, at_end);
    for (size_t k = 0; k < numbers; k++)
        ledger[k] = before;
    return ledger;
}

static uint32_t *some_ledger(size_t numbers, uint32_t before, int at_end)
{
    return ledger_in(ledger_region, numbers, before, at_end);
}

static plancheck_plan_result ask_plan(const struct text *network, const struct text *plan, uint32_t *ledger, size_t numbers, int at_end)
{
    const uint8_t *network_lent = lend(network_region, network->bytes, network->length, at_end);
    const uint8_t *plan_lent = lend(text_region, plan->bytes, plan->length, at_end);
    return plancheck_check_plan(network_lent, network->length, plan_lent, plan->length, ledger, numbers);
}

static int same_plan_result(const plancheck_plan_result *a, const plancheck_plan_result *b)
{
    return a->number == b->number && a->line == b->line && a->item == b->item && a->admitted == b->admitted && a->let_out == b->let_out &&
           a->inside == b->inside && a->doubled_time == b->doubled_time;
}

/* How many numbers of the ledger a call may have written that took so many steps, by its number and line. */
static size_t written_numbers(const plancheck_counts_result *counts, uint32_t steps, uint32_t number, uint32_t line)
{
    if (is_network_number(number) || number == PLANCHECK_CARRY_BOUNDARY || number == PLANCHECK_SHEET_VALUES || number == PLANCHECK_LEDGER_TOO_SHORT)
        return 0;
    uint32_t rows = line == 0 || line > steps || number == PLANCHECK_SHEET_NOT_KEPT ? steps + 1 : line;
    return 2 * (size_t)counts->links * rows;
}

/* A plan to be judged on a network, and perhaps held to a sheet. */
struct judging {
    struct text network, plan, sheet;
    int is_held_to_sheet;
    size_t numbers;
};

static plancheck_plan_result ask_judging(const struct judging *asked, uint32_t *ledger, int at_end)
{
    if (!asked->is_held_to_sheet)
        return ask_plan(&asked->network, &asked->plan, ledger, asked->numbers, at_end);
    const uint8_t *network_lent = lend(network_region, asked->network.bytes, asked->network.length, at_end);
    const uint8_t *plan_lent = lend(text_region, asked->plan.bytes, asked->plan.length, at_end);
    const uint8_t *sheet_lent = lend(second_region, asked->sheet.bytes, asked->sheet.length, at_end);
    return plancheck_check_sheet(network_lent, asked->network.length, plan_lent, asked->plan.length, sheet_lent, asked->sheet.length, ledger, asked->numbers);
}

static plancheck_plan_result judge_twice(const struct judging *asked)
{
    size_t numbers = asked->numbers;
    uint32_t *ledger = some_ledger(numbers, 0xaaaaaaaau, 1);
    plancheck_plan_result first = ask_judging(asked, ledger, 1);
    uint32_t kept[LEDGER_ROOM];
    memcpy(kept, ledger, 4 * numbers);

    ledger = some_ledger(numbers, 0x55555555u, 0);
    plancheck_plan_result second = ask_judging(asked, ledger, 0);
    DEMAND(same_plan_result(&first, &second));
    plancheck_counts_result counts = plancheck_network_counts(asked->network.bytes, asked->network.length);
    size_t written = written_numbers(&counts, counts.steps, first.number, first.line);
    DEMAND(written <= numbers);
    for (size_t k = 0; k < numbers; k++)
        DEMAND(k < written ? kept[k] == ledger[k] : kept[k] == 0xaaaaaaaau && ledger[k] == 0x55555555u);
    if (first.number != 0)
        DEMAND(first.admitted == 0 && first.let_out == 0 && first.inside == 0 && first.doubled_time == 0);
    count_number(first.number);
    return first;
}

static void try_plan(void)
{
    const struct example *example = &examples[below(EXAMPLES)];
    static struct judging asked;
    asked.is_held_to_sheet = 0;
    some_network(example, &asked.network);
    asked.plan = example->plan;
    damage(&asked.plan);
    if (below(20) == 0)
        asked.plan.length = 0;
    asked.numbers = below(10) == 0 ? below(LEDGER_ROOM) : LEDGER_ROOM;
    uint32_t number = judge_twice(&asked).number;
    DEMAND(number == 0 || is_plan_number(number));
}

/* A plan of the avenue: its own, or one that is written for the sheet with offsets. */
static void some_avenue_plan(struct text *plan)
{
    const struct text *network = &examples[AVENUE].network;
    *plan = examples[AVENUE].plan;
    if (below(2) == 0)
        plan->length = plancheck_plan_from_sheet(network->bytes, network->length, offsets.bytes, offsets.length, plan->bytes, TEXT_MAX).length;
}

static void try_sheet(void)
{
    static struct judging asked;
    asked.is_held_to_sheet = 1;
    some_network(&examples[AVENUE], &asked.network);
    some_avenue_plan(&asked.plan);
    asked.sheet = sheet;
    if (below(2) == 0)
        damage(&asked.plan);
    if (below(2) == 0)
        damage(&asked.sheet);
    asked.numbers = below(10) == 0 ? below(LEDGER_ROOM) : LEDGER_ROOM;
    uint32_t number = judge_twice(&asked).number;
    DEMAND(number == 0 || is_plan_number(number) || number == PLANCHECK_SHEET_VALUES || number == PLANCHECK_SHEET_NOT_KEPT);
}

struct comparing {
    struct text network, plans[2];
    size_t numbers[2];
};

/* Compares two plans, with ledgers whose numbers are all `before`, and keeps what the ledgers hold then. */
static plancheck_comparison_result ask_comparing(const struct comparing *asked, uint32_t before, uint32_t kept[2][LEDGER_ROOM], int at_end)
{
    const uint8_t *network_lent = lend(network_region, asked->network.bytes, asked->network.length, at_end);
    const uint8_t *first_lent = lend(text_region, asked->plans[0].bytes, asked->plans[0].length, at_end);
    const uint8_t *second_lent = lend(second_region, asked->plans[1].bytes, asked->plans[1].length, at_end);
    uint32_t *first = ledger_in(ledger_region, asked->numbers[0], before, at_end), *second = ledger_in(second_ledger_region, asked->numbers[1], before, at_end);
    plancheck_comparison_result result = plancheck_compare_plans(network_lent, asked->network.length, first_lent, asked->plans[0].length, second_lent,
                                                                 asked->plans[1].length, first, asked->numbers[0], second, asked->numbers[1]);
    memcpy(kept[0], first, 4 * asked->numbers[0]);
    memcpy(kept[1], second, 4 * asked->numbers[1]);
    return result;
}

static int same_comparison(const plancheck_comparison_result *a, const plancheck_comparison_result *b)
{
    return a->number == b->number && a->line == b->line && a->item == b->item && a->plan == b->plan && a->order == b->order && a->gap == b->gap;
}

/* Two accepted plans: by their order and gap, and the other way round. */
static void demand_compared(struct comparing *asked, const plancheck_comparison_result *told)
{
    static uint32_t kept[2][LEDGER_ROOM];
    struct text first = asked->plans[0];
    asked->plans[0] = asked->plans[1];
    asked->plans[1] = first;
    plancheck_comparison_result swapped = ask_comparing(asked, 0, kept, 0);
    DEMAND(told->plan == 0 && swapped.number == 0 && swapped.gap == -told->gap);
    switch (told->order) {
    case PLANCHECK_AHEAD:
        DEMAND(told->gap < 0 && swapped.order == PLANCHECK_BEHIND);
        break;
    case PLANCHECK_BEHIND:
        DEMAND(told->gap > 0 && swapped.order == PLANCHECK_AHEAD);
        break;
    case PLANCHECK_EQUAL:
        DEMAND(told->gap == 0 && swapped.order == PLANCHECK_EQUAL);
        break;
    default:
        DEMAND(told->order == PLANCHECK_CROSSING && swapped.order == PLANCHECK_CROSSING);
    }
}

/* How many numbers of the ledger of plan `which` the comparison may have written. */
static size_t compared_numbers(const plancheck_counts_result *counts, const plancheck_comparison_result *told, uint32_t which)
{
    if (told->plan == which)
        return written_numbers(counts, counts->steps, told->number, told->line);
    int is_accepted = told->number == 0 || told->plan > which;
    return is_accepted ? 2 * (size_t)counts->links * (counts->steps + 1) : 0;
}

static void try_comparison(void)
{
    static struct comparing asked;
    static uint32_t kept[2][2][LEDGER_ROOM];
    const struct example *example = &examples[below(EXAMPLES)];
    some_network(example, &asked.network);
    for (int k = 0; k < 2; k++) {
        asked.plans[k] = example->plan;
        if (below(2) == 0)
            damage(&asked.plans[k]);
        if (below(8) == 0)
            asked.plans[k].length = 0;
        asked.numbers[k] = below(10) == 0 ? below(LEDGER_ROOM) : LEDGER_ROOM;
    }
    plancheck_comparison_result told = ask_comparing(&asked, 0xaaaaaaaau, kept[0], 1), again = ask_comparing(&asked, 0x55555555u, kept[1], 0);
    DEMAND(same_comparison(&told, &again));
    plancheck_counts_result counts = plancheck_network_counts(asked.network.bytes, asked.network.length);
    for (uint32_t which = 0; which < 2; which++) {
        size_t written = is_network_number(told.number) ? 0 : compared_numbers(&counts, &told, which + 1);
        DEMAND(written <= asked.numbers[which]);
        for (size_t k = 0; k < asked.numbers[which]; k++)
            DEMAND(k < written ? kept[0][which][k] == kept[1][which][k] : kept[0][which][k] == 0xaaaaaaaau && kept[1][which][k] == 0x55555555u);
    }
    if (told.number == 0) {
        if (asked.numbers[0] == asked.numbers[1])
            demand_compared(&asked, &told);
    } else {
        DEMAND(is_plan_number(told.number) && told.plan <= 2 && (told.plan == 0) == is_network_number(told.number) && told.order == 0 && told.gap == 0);
    }
    count_number(told.number);
}

static plancheck_link_result ask_link(const struct text *network, const uint32_t *numbers, size_t count, uint32_t boundary, uint32_t link, int at_end)
{
    const uint8_t *network_lent = lend(network_region, network->bytes, network->length, at_end);
    const uint32_t *ledger = lend(ledger_region, numbers, 4 * count, at_end);
    return plancheck_link_state(network_lent, network->length, ledger, count, boundary, link);
}

static void try_link(void)
{
    const struct example *example = &examples[below(EXAMPLES)];
    static struct text network;
    some_network(example, &network);
    size_t count = below(10) == 0 ? below(LEDGER_ROOM) : LEDGER_ROOM;
    uint32_t numbers[LEDGER_ROOM] = {0};
    set_writable(ledger_region);
    if (below(2) == 0)
        ask_plan(&network, &example->plan, numbers, LEDGER_ROOM, 1);
    for (uint32_t times = below(4); times != 0; times--)
        numbers[below(LEDGER_ROOM)] = below(10000);
    uint32_t boundary = below(20) == 0 ? UINT32_MAX : below(30), link = below(20) == 0 ? UINT32_MAX : below(12);
    plancheck_link_result first = ask_link(&network, numbers, count, boundary, link, 1);
    plancheck_link_result second = ask_link(&network, numbers, count, boundary, link, 0);
    set_writable(ledger_region);
    DEMAND(memcmp(&first, &second, sizeof first) == 0);
    if (first.number != 0) {
        DEMAND(is_network_number(first.number) || first.number == 8 || (first.number >= 19 && first.number <= 21));
        DEMAND(first.queued == 0 && first.in_transit == 0);
    }
    count_number(first.number);
}

/* A plan text to be written for a network, of a listing or for a sheet. */
struct writing {
    struct text network, text;
    int is_for_sheet;
    size_t room;
};

static plancheck_text_result ask_writing(const struct writing *asked, uint8_t *buffer, int at_end)
{
    const uint8_t *network_lent = lend(network_region, asked->network.bytes, asked->network.length, at_end);
    const uint8_t *text_lent = lend(text_region, asked->text.bytes, asked->text.length, at_end);
    return (asked->is_for_sheet ? plancheck_plan_from_sheet : plancheck_plan_from_listing)(network_lent, asked->network.length, text_lent, asked->text.length,
                                                                                           buffer, asked->room);
}

static plancheck_text_result write_twice(const struct writing *asked, uint8_t *kept)
{
    size_t room = asked->room;
    uint8_t *buffer = place(buffer_region, room, 1);
    memset(buffer, 0xaa, room);
    plancheck_text_result first = ask_writing(asked, buffer, 1);
    memcpy(kept, buffer, room);
    buffer = place(buffer_region, room, 0);
    memset(buffer, 0x55, room);
    plancheck_text_result second = ask_writing(asked, buffer, 0);
    DEMAND(first.number == second.number && first.line == second.line && first.item == second.item && first.length == second.length);
    DEMAND(first.number == 0 ? first.length <= room : first.length == 0);
    for (size_t k = 0; k < room; k++)
        DEMAND(k < first.length ? kept[k] == buffer[k] : kept[k] == 0xaa && buffer[k] == 0x55);
    count_number(first.number);
    return first;
}

static void try_listing(void)
{
    const struct example *example = &examples[below(EXAMPLES)];
    static struct writing asked;
    static uint8_t written[BUFFER_ROOM];
    asked.is_for_sheet = 0;
    some_network(example, &asked.network);
    asked.text = example->listing;
    damage(&asked.text);
    asked.room = below(4) == 0 ? below(BUFFER_ROOM) : BUFFER_ROOM;
    uint32_t number = write_twice(&asked, written).number;
    DEMAND(number == 0 || is_network_number(number) || (number >= 22 && number <= 24));
}

/* What the sheet with offsets has the avenue's first signal show at a second: 40 s of phase 1, then 20 s of phase 2. */
static uint8_t first_mask(uint32_t second)
{
    return second % 60 < 40 ? '1' : '2';
}

/* Twelve steps of 5 s, then twelve of 10 s; the mask of signal 1 is the first number of each line. */
static void demand_first_masks(const uint8_t *plan, size_t length)
{
    size_t at = 0;
    for (uint32_t step = 0, second = 0; step < 24; step++, second += step <= 12 ? 5 : 10) {
        DEMAND(at + 2 < length && plan[at] == 'P' && plan[at + 2] == first_mask(second));
        while (at < length && plan[at] != '\n')
            at++;
        at++;
    }
    DEMAND(at == length);
}

static void try_sheet_plan(void)
{
    static struct writing asked;
    static uint8_t written[BUFFER_ROOM];
    asked.is_for_sheet = 1;
    some_network(&examples[AVENUE], &asked.network);
    asked.text = offsets;
    int is_damaged = below(2) == 0;
    if (is_damaged)
        damage(&asked.text);
    asked.room = below(4) == 0 ? below(BUFFER_ROOM) : BUFFER_ROOM;
    plancheck_text_result result = write_twice(&asked, written);
    uint32_t number = result.number;
    DEMAND(number == 0 || is_network_number(number) || number == PLANCHECK_SHEET_VALUES || number == PLANCHECK_SHEET_OFF_BOUNDARIES ||
           number == PLANCHECK_BUFFER_TOO_SHORT);
    const struct text *avenue = &examples[AVENUE].network;
    if (number == 0 && !is_damaged && asked.network.length == avenue->length && memcmp(asked.network.bytes, avenue->bytes, avenue->length) == 0)
        demand_first_masks(written, result.length);
}

struct carrying {
    struct text network, plan;
    uint32_t boundary;
    size_t numbers, room;
};

static plancheck_text_result ask_carry(const struct carrying *asked, uint32_t *ledger, uint8_t *buffer, int at_end)
{
    const uint8_t *network_lent = lend(network_region, asked->network.bytes, asked->network.length, at_end);
    const uint8_t *plan_lent = lend(text_region, asked->plan.bytes, asked->plan.length, at_end);
    return plancheck_carry_on(network_lent, asked->network.length, asked->boundary, plan_lent, asked->plan.length, ledger, asked->numbers, buffer, asked->room);
}

/* A network, a boundary inside or just outside its plan, and as many lines of the plan. */
static void some_carrying(struct carrying *asked)
{
    const struct example *example = &examples[below(EXAMPLES)];
    some_network(example, &asked->network);
    asked->boundary = below(20) == 0 ? UINT32_MAX : below(26);
    asked->plan = example->plan;
    cut_lines(&asked->plan, asked->boundary);
    if (below(2) == 0)
        damage(&asked->plan);
    if (below(20) == 0)
        asked->plan.length = 0;
    asked->numbers = below(10) == 0 ? below(LEDGER_ROOM) : LEDGER_ROOM;
    asked->room = below(4) == 0 ? below(BUFFER_ROOM) : BUFFER_ROOM;
}

static void try_carry(void)
{
    static struct carrying asked;
    some_carrying(&asked);
    plancheck_text_result result[2];
    static uint32_t ledger[2][LEDGER_ROOM];
    static uint8_t buffer[2][BUFFER_ROOM];
    static const uint8_t before[2] = {0x55, 0xaa};
    for (int at_end = 0; at_end < 2; at_end++) {
        uint32_t *ledger_lent = some_ledger(asked.numbers, before[at_end], at_end);
        uint8_t *buffer_lent = place(buffer_region, asked.room, at_end);
        memset(buffer_lent, before[at_end], asked.room);
        result[at_end] = ask_carry(&asked, ledger_lent, buffer_lent, at_end);
        memcpy(ledger[at_end], ledger_lent, 4 * asked.numbers);
        memcpy(buffer[at_end], buffer_lent, asked.room);
    }
    uint32_t number = result[0].number, line = result[0].line;
    size_t length = result[0].length;
    DEMAND(number == result[1].number && line == result[1].line && result[0].item == result[1].item && length == result[1].length);
    DEMAND(number == 0 ? length <= asked.room : length == 0);
    for (size_t k = 0; k < asked.room; k++)
        DEMAND(k < length ? buffer[0][k] == buffer[1][k] : buffer[0][k] == before[0] && buffer[1][k] == before[1]);
    plancheck_counts_result counts = plancheck_network_counts(asked.network.bytes, asked.network.length);
    size_t written = written_numbers(&counts, asked.boundary, number, line);
    DEMAND(written <= asked.numbers);
    for (size_t k = 0; k < asked.numbers; k++)
        DEMAND(k < written ? ledger[0][k] == ledger[1][k] : ledger[0][k] == before[0] && ledger[1][k] == before[1]);
    DEMAND(number == 0 || is_plan_number(number) || number == PLANCHECK_CARRY_BOUNDARY || number == PLANCHECK_CARRY_BUFFER_TOO_SHORT);
    if (number == 0) {
        plancheck_counts_result left = plancheck_network_counts(buffer[0], length);
        DEMAND(left.number == 0 && left.links == counts.links && left.steps == counts.steps - asked.boundary);
    }
    count_number(number);
}

/* A network and a plan to be split, and the room for the network and the plan of the first half, then of the second. */
struct splitting {
    struct text network, plan;
    uint32_t first_half;
    size_t room[HALF_TEXTS];
};

/* Splits into buffers whose bytes are all `before`, and keeps what they hold then. */
static plancheck_split_result ask_split(const struct splitting *asked, uint8_t before, uint8_t kept[HALF_TEXTS][BUFFER_ROOM], int at_end)
{
    const uint8_t *network_lent = lend(network_region, asked->network.bytes, asked->network.length, at_end);
    const uint8_t *plan_lent = lend(text_region, asked->plan.bytes, asked->plan.length, at_end);
    uint8_t *lent[HALF_TEXTS];
    for (int k = 0; k < HALF_TEXTS; k++) {
        lent[k] = place(half_regions[k], asked->room[k], at_end);
        memset(lent[k], before, asked->room[k]);
    }
    plancheck_split_result result =
        plancheck_split(network_lent, asked->network.length, plan_lent, asked->plan.length, asked->first_half, lent[0], asked->room[0], lent[1],
                        asked->room[1], lent[2], asked->room[2], lent[3], asked->room[3]);
    for (int k = 0; k < HALF_TEXTS; k++)
        memcpy(kept[k], lent[k], asked->room[k]);
    return result;
}

/* Links 1 to 3 and 9 of the example against the others, or the other way round; now and then another set. */
static uint32_t some_set(void)
{
    uint32_t set = below(2) == 0 ? 0x107 : 0x6f8;
    if (below(4) == 0)
        set ^= (uint32_t)1 << below(32);
    return below(20) == 0 ? below(2048) : set;
}

static void some_splitting(struct splitting *asked)
{
    const struct example *example = below(10) == 0 ? &examples[below(EXAMPLES)] : below(20) == 0 ? &parted : &splittable;
    some_network(example, &asked->network);
    asked->plan = example->plan;
    if (below(2) == 0)
        damage(&asked->plan);
    if (below(20) == 0)
        asked->plan.length = 0;
    asked->first_half = example == &parted ? below(4) : some_set();
    for (int k = 0; k < HALF_TEXTS; k++)
        asked->room[k] = below(10) == 0 ? below(BUFFER_ROOM) : BUFFER_ROOM;
}

static plancheck_plan_result check_text(const uint8_t *network, size_t network_len, const uint8_t *plan, size_t plan_len)
{
    static uint32_t ledger[PLANCHECK_LEDGER_MAX];
    return plancheck_check_plan(network, network_len, plan, plan_len, ledger, PLANCHECK_LEDGER_MAX);
}

/* What was written: a half's network is refused for a border's volume alone; the halves have what the whole has. */
static void demand_halves(const struct splitting *asked, const size_t *lengths, uint8_t texts[HALF_TEXTS][BUFFER_ROOM])
{
    plancheck_counts_result whole = plancheck_network_counts(asked->network.bytes, asked->network.length), half[2];
    for (int k = 0; k < 2; k++) {
        half[k] = plancheck_network_counts(texts[2 * k], lengths[2 * k]);
        DEMAND(half[k].number == 0 || half[k].number == PLANCHECK_STEP_VALUES);
    }
    if (half[0].number == 0 && half[1].number == 0) {
        DEMAND(half[0].links + half[1].links == whole.links && half[0].signals + half[1].signals == whole.signals);
        DEMAND(half[0].movements + half[1].movements <= whole.movements && half[0].trams + half[1].trams == whole.trams);
        DEMAND(half[0].steps == whole.steps && half[1].steps == whole.steps);
    }
    plancheck_plan_result judged = check_text(asked->network.bytes, asked->network.length, asked->plan.bytes, asked->plan.length);
    if (judged.number == 0) {
        plancheck_plan_result first = check_text(texts[0], lengths[0], texts[1], lengths[1]);
        plancheck_plan_result second = check_text(texts[2], lengths[2], texts[3], lengths[3]);
        DEMAND(first.number == 0 && second.number == 0 && first.inside + second.inside == judged.inside);
        DEMAND(first.doubled_time + second.doubled_time == judged.doubled_time);
        DEMAND(first.admitted + second.admitted - judged.admitted == first.let_out + second.let_out - judged.let_out);
    }
}

static int is_split_number(uint32_t number)
{
    return is_network_number(number) || number == PLANCHECK_PLAN_FORM || (number >= PLANCHECK_CANNOT_SPLIT && number <= PLANCHECK_SPLIT_BUFFER_TOO_SHORT);
}

static void try_split(void)
{
    static struct splitting asked;
    static uint8_t kept[2][HALF_TEXTS][BUFFER_ROOM];
    some_splitting(&asked);
    plancheck_split_result first = ask_split(&asked, 0xaa, kept[0], 1), second = ask_split(&asked, 0x55, kept[1], 0);
    DEMAND(first.number == second.number && first.line == second.line && first.item == second.item);
    const size_t lengths[HALF_TEXTS] = {first.network_1, first.plan_1, first.network_2, first.plan_2};
    const size_t again[HALF_TEXTS] = {second.network_1, second.plan_1, second.network_2, second.plan_2};
    for (int text = 0; text < HALF_TEXTS; text++) {
        DEMAND(lengths[text] == again[text] && (first.number == 0 ? lengths[text] <= asked.room[text] : lengths[text] == 0));
        for (size_t k = 0; k < asked.room[text]; k++)
            DEMAND(k < lengths[text] ? kept[0][text][k] == kept[1][text][k] : kept[0][text][k] == 0xaa && kept[1][text][k] == 0x55);
    }
    count_number(first.number);
    if (first.number != 0) {
        DEMAND(is_split_number(first.number));
        return;
    }
    demand_halves(&asked, lengths, kept[0]);
    /* Buffers of just these lengths will do, and with one a byte shorter nothing is written. */
    memcpy(asked.room, lengths, sizeof lengths);
    DEMAND(ask_split(&asked, 0xaa, kept[1], 1).number == 0);
    asked.room[below(HALF_TEXTS)]--;
    DEMAND(ask_split(&asked, 0xaa, kept[1], 0).number == PLANCHECK_SPLIT_BUFFER_TOO_SHORT);
    for (int text = 0; text < HALF_TEXTS; text++)
        for (size_t k = 0; k < asked.room[text]; k++)
            DEMAND(kept[1][text][k] == 0xaa);
}

static plancheck_cells_result ask_cells(const struct text *text, int at_end)
{
    return plancheck_run_cells(lend(text_region, text->bytes, text->length, at_end), text->length);
}

static void try_cells(void)
{
    static struct text text;
    text = corridor;
    damage(&text);
    plancheck_cells_result first = ask_cells(&text, 1), second = ask_cells(&text, 0);
    DEMAND(memcmp(&first, &second, sizeof first) == 0);
    DEMAND(first.number == 0 || first.number == 36 || first.number == 37);
    DEMAND(first.number == 0 ? first.cells >= 1 && first.cells <= PLANCHECK_MAX_CELLS : first.cells == 0 && first.flow_in == 0 && first.flow_out == 0);
    for (uint32_t k = first.cells; k < PLANCHECK_MAX_CELLS; k++)
        DEMAND(first.volumes[k] == 0);
    count_number(first.number);
}

/* A few, so that most steps pass, or about as many as are taken. */
static size_t some_count(void)
{
    return below(4) == 0 ? 60 + below(7) : below(6);
}

static void fill(double *doubles, size_t count)
{
    for (size_t k = 0; k < count; k++)
        doubles[k] = some_double();
}

static void try_vehicles(void)
{
    size_t vehicles = some_count(), advances = below(10) == 0 ? some_count() : vehicles, lines = some_count();
    double before[DOUBLES_ROOM], advance[DOUBLES_ROOM], line[DOUBLES_ROOM], spacing = some_double(), after[2][DOUBLES_ROOM];
    fill(before, vehicles);
    fill(advance, advances);
    fill(line, lines);
    plancheck_network_result result[2];
    for (int at_end = 0; at_end < 2; at_end++) {
        double *places = place(places_region, sizeof(double) * vehicles, at_end);
        memcpy(places, before, sizeof(double) * vehicles);
        const double *advances_lent = lend(advances_region, advance, sizeof(double) * advances, at_end);
        const double *lines_lent = lend(lines_region, line, sizeof(double) * lines, at_end);
        result[at_end] = plancheck_step_vehicles(places, vehicles, advances_lent, advances, lines_lent, lines, spacing);
        memcpy(after[at_end], places, sizeof(double) * vehicles);
    }
    DEMAND(memcmp(&result[0], &result[1], sizeof result[0]) == 0);
    DEMAND(memcmp(after[0], after[1], sizeof(double) * vehicles) == 0);
    DEMAND(result[0].line == 0 && result[0].item == 0);
    if (result[0].number != 0) {
        DEMAND(result[0].number == 38 || result[0].number == 39);
        DEMAND(memcmp(after[0], before, sizeof(double) * vehicles) == 0);
    }
    count_number(result[0].number);
}

/* NULL will do for every pointer whose length is 0. */
static void try_null(void)
{
    const struct text *network = &examples[0].network, *plan = &examples[0].plan;
    static uint32_t ledger[PLANCHECK_LEDGER_MAX];
    DEMAND(plancheck_check_network(NULL, 0).number == 1);
    DEMAND(plancheck_network_counts(NULL, 0).number == 1);
    DEMAND(plancheck_check_plan(NULL, 0, NULL, 0, NULL, 0).number == 1);
    DEMAND(plancheck_check_plan(network->bytes, network->length, plan->bytes, plan->length, NULL, 0).number == 8);
    DEMAND(plancheck_check_plan(network->bytes, network->length, NULL, 0, ledger, PLANCHECK_LEDGER_MAX).number == 13);
    DEMAND(plancheck_link_state(NULL, 0, NULL, 0, 0, 1).number == 1);
    DEMAND(plancheck_link_state(network->bytes, network->length, NULL, 0, 0, 1).number == 8);
    DEMAND(plancheck_carry_on(NULL, 0, 1, NULL, 0, NULL, 0, NULL, 0).number == 1);
    DEMAND(plancheck_carry_on(network->bytes, network->length, 1, NULL, 0, NULL, 0, NULL, 0).number == 8);
    DEMAND(plancheck_carry_on(network->bytes, network->length, 1, NULL, 0, ledger, PLANCHECK_LEDGER_MAX, NULL, 0).number == 32);
    DEMAND(plancheck_plan_from_listing(NULL, 0, NULL, 0, NULL, 0).number == 1);
    DEMAND(plancheck_plan_from_listing(network->bytes, network->length, NULL, 0, NULL, 0).number == 24);
    static uint8_t buffer[PLANCHECK_WRITTEN_PLAN_MAX];
    DEMAND(plancheck_plan_from_listing(network->bytes, network->length, NULL, 0, buffer, sizeof buffer).number == 0);
    plancheck_comparison_result compared = plancheck_compare_plans(network->bytes, network->length, plan->bytes, plan->length, NULL, 0, ledger, PLANCHECK_LEDGER_MAX, NULL, 0);
    DEMAND(compared.number == 8 && compared.plan == 2);
    DEMAND(plancheck_compare_plans(network->bytes, network->length, NULL, 0, NULL, 0, NULL, 0, NULL, 0).plan == 1);
    DEMAND(plancheck_compare_plans(NULL, 0, NULL, 0, NULL, 0, NULL, 0, NULL, 0).number == 1);
    DEMAND(plancheck_check_sheet(NULL, 0, NULL, 0, NULL, 0, NULL, 0).number == 1);
    DEMAND(plancheck_check_sheet(network->bytes, network->length, NULL, 0, NULL, 0, NULL, 0).number == 33);
    DEMAND(plancheck_plan_from_sheet(NULL, 0, NULL, 0, NULL, 0).number == 1);
    DEMAND(plancheck_plan_from_sheet(network->bytes, network->length, NULL, 0, NULL, 0).number == 33);
    network = &splittable.network;
    DEMAND(plancheck_split(NULL, 0, NULL, 0, 0, NULL, 0, NULL, 0, NULL, 0, NULL, 0).number == 1);
    DEMAND(plancheck_split(network->bytes, network->length, NULL, 0, 0, NULL, 0, NULL, 0, NULL, 0, NULL, 0).number == 40);
    DEMAND(plancheck_split(network->bytes, network->length, NULL, 0, 0x107, NULL, 0, NULL, 0, NULL, 0, NULL, 0).number == 42);
    DEMAND(plancheck_run_cells(NULL, 0).number == 36);
    double place = 1.0;
    const double advance = 1.0;
    DEMAND(plancheck_step_vehicles(NULL, 0, NULL, 0, NULL, 0, 0.0).number == 0);
    DEMAND(plancheck_step_vehicles(&place, 1, &advance, 1, NULL, 0, 0.0).number == 0 && place == 2.0);
    DEMAND(plancheck_step_vehicles(&place, 1, NULL, 0, NULL, 0, 0.0).number == 39);
    printf("NULL with length 0: every pointer of every call\n");
}

static void put_text(struct text *text, const char *bytes)
{
    text->length = strlen(bytes);
    memcpy(text->bytes, bytes, text->length);
}

static void read_examples(const char *examples_folder)
{
    static const char *const folders[EXAMPLES] = {"corridor", "avenue", "listing", "carry"};
    char folder[4096];
    for (int k = 0; k < EXAMPLES; k++) {
        snprintf(folder, sizeof folder, "%s/%s", examples_folder, folders[k]);
        read_example(&examples[k].network, folder, "network.tsv");
        read_example(&examples[k].plan, folder, "plan.tsv");
        snprintf(folder, sizeof folder, "%s/listing", examples_folder);
        read_example(&examples[k].listing, folder, "listing.txt");
    }
    snprintf(folder, sizeof folder, "%s/split", examples_folder);
    read_example(&splittable.network, folder, "network.tsv");
    read_example(&splittable.plan, folder, "plan.tsv");
    /* two links of one signal and no movement, so that a half with one of them parts the signal (41) */
    put_text(&parted.network, "N\t2\t1\t0\t1\t0\t0\nG\t20\t60\t2\t2\t10\t20\t10\t30\t10\t30\nQ\t60000\t10\t0\t1\t1\t0\t0\nQ\t60000\t10\t500\t1\t2\t0\t0\nS\t10\t0\t0\n");
    put_text(&parted.plan, "P\t2\t0\t0\t0\t0\n");
    snprintf(folder, sizeof folder, "%s/cells", examples_folder);
    read_example(&corridor, folder, "corridor.tsv");
    snprintf(folder, sizeof folder, "%s/sheet", examples_folder);
    read_example(&sheet, folder, "sheet.tsv");
    read_example(&offsets, folder, "offsets.tsv");
}

int main(int count, char **arguments)
{
    if (count != 4) {
        fprintf(stderr, "usage: fuzz EXAMPLES COUNT SEED\n");
        return 2;
    }
    read_examples(arguments[1]);
    uint64_t inputs = strtoull(arguments[2], NULL, 10);
    seed = strtoull(arguments[3], NULL, 10);
    set_seed(seed);
    __sanitizer_set_death_callback(tell_input);
    network_region = new_region(TEXT_MAX);
    text_region = new_region(TEXT_MAX);
    second_region = new_region(TEXT_MAX);
    ledger_region = new_region(4 * LEDGER_ROOM);
    second_ledger_region = new_region(4 * LEDGER_ROOM);
    buffer_region = new_region(BUFFER_ROOM);
    for (int k = 0; k < HALF_TEXTS; k++)
        half_regions[k] = new_region(BUFFER_ROOM);
    places_region = new_region(sizeof(double) * DOUBLES_ROOM);
    advances_region = new_region(sizeof(double) * DOUBLES_ROOM);
    lines_region = new_region(sizeof(double) * DOUBLES_ROOM);

    plancheck_version_result version = plancheck_version();
    DEMAND(version.major == PLANCHECK_VERSION_MAJOR && version.minor == PLANCHECK_VERSION_MINOR && version.patch == PLANCHECK_VERSION_PATCH);
    try_null();
    static void (*const calls[])(void) = {try_network, try_counts, try_plan, try_plan, try_comparison, try_link, try_carry, try_listing, try_sheet, try_sheet_plan, try_split, try_cells, try_vehicles};
    for (input = 0; input < inputs; input++)
        calls[below(sizeof calls / sizeof calls[0])]();
    printf("number\ttold\n");
    for (uint32_t number = 0; number < sizeof told / sizeof told[0]; number++)
        if (told[number] != 0)
            printf("%" PRIu32 "\t%" PRIu64 "\n", number, told[number]);
    printf("%" PRIu64 " inputs, each asked twice: nothing wrong\n", inputs);
    return 0;
}
