/*
 * Reads the text of cases, has the library answer each, and compares. No heap, and of the C library memcpy and
 * memset alone. Where plancheck.h declares only the calls of a box, the cases of the others are left out.
 */
#include "testkit.h"

#include "plancheck.h"

#include <string.h>

/*
 * How long a text, a ledger or a buffer may be: in bytes, of ledgers in numbers of 32 bits. A case that is longer is
 * left out, and counted. As they stand here all cases fit; a small board sets its own by -D.
 */
#ifndef TESTKIT_NETWORK_ROOM
#define TESTKIT_NETWORK_ROOM 24000
#endif
#ifndef TESTKIT_PLAN_ROOM
#define TESTKIT_PLAN_ROOM 89000
#endif
#ifndef TESTKIT_SECOND_ROOM /* of a sheet, or a second plan */
#define TESTKIT_SECOND_ROOM 4000
#endif
#ifndef TESTKIT_LEDGER_ROOM /* of both ledgers together */
#define TESTKIT_LEDGER_ROOM 6000
#endif
#ifndef TESTKIT_BUFFER_ROOM /* of all buffers together */
#define TESTKIT_BUFFER_ROOM 100000
#endif

enum {
    BLOCK_ROOM = 128,       /* bytes that are read at once */
    NAME_ROOM = 32,         /* of a case, and of a word of the text */
    MOST_BUFFERS = 4,       /* of plancheck_split */
    MOST_LEDGERS = 2,       /* of plancheck_compare_plans */
    MOST_NUMBERS = 4,       /* of an answer */
    MOST_LENGTH = 10000000, /* of a ledger or a buffer */
    MOST_VALUES = 80,       /* of a list of doubles: some more than the library takes */
    DIFFERENCES_TOLD = 10
};

/* A text of a case. Where it is longer than its room, its bytes are not all there, and its case is left out. */
struct text {
    uint8_t *bytes;
    size_t room, length;
};

/* A ledger or a buffer that is lent to a call: a part of those that all have. */
struct part {
    size_t start, length;
};

enum answer { ACCEPTED, STATE, REFUSED, WRITTEN, COMPARED, SPLIT, RAN, ANSWERS };

static const char *const answer_words[ANSWERS] = {"accepted", "state", "refused", "written",
                                                  "compared", "split", "ran"};

/* An answer: what is expected, and what the library returned. */
struct told {
    uint32_t answer; /* of enum answer */
    uint64_t numbers[MOST_NUMBERS];
    uint64_t checksum;
    uint64_t rest; /* of all that must be 0 beside them: not 0 where something is not */
};

static uint8_t network_bytes[TESTKIT_NETWORK_ROOM], plan_bytes[TESTKIT_PLAN_ROOM];
static uint32_t ledger_numbers[TESTKIT_LEDGER_ROOM];
static uint8_t buffer_bytes[TESTKIT_BUFFER_ROOM];
static struct text network = {network_bytes, TESTKIT_NETWORK_ROOM, 0};
static struct text plan = {plan_bytes, TESTKIT_PLAN_ROOM, 0};
static uint8_t second_bytes[TESTKIT_SECOND_ROOM];
static struct text second = {second_bytes, TESTKIT_SECOND_ROOM, 0};

#ifndef PLANCHECK_BOX
/* Doubles of a step of vehicles. */
struct values {
    double metres[MOST_VALUES];
    size_t length;
};
static struct values places, advances, red_lines, spacing;
#endif

/* What else a case asks. */
static char case_name[NAME_ROOM], call_name[NAME_ROOM];
static struct part ledgers[MOST_LEDGERS], buffers[MOST_BUFFERS];
static size_t ledger_count, ledger_total, buffer_count, buffer_total;
static uint64_t boundary, link_number, half;
static struct told expected;

/* How it went. */
static uint32_t cases_run, cases_different, cases_too_long, cases_of_other_calls, cases_too_wide;

/* The text of cases, a block at a time. */
static char block[BLOCK_ROOM];
static size_t block_length, block_place;
static uint32_t text_line;
static int text_is_wrong;

/* The next byte, which stays; -1 at the end. */
static int peek(void)
{
    if (block_place == block_length) {
        block_length = testkit_read(block, sizeof block);
        block_place = 0;
        if (block_length == 0)
            return -1;
    }
    return (unsigned char)block[block_place];
}

static int next(void)
{
    int byte = peek();
    if (byte >= 0)
        block_place++;
    if (byte == '\n')
        text_line++;
    return byte;
}

static void expect(int byte)
{
    if (next() != byte)
        text_is_wrong = 1;
}

static int is_same(const char *word, const char *other)
{
    while (*word != 0 && *word == *other) {
        word++;
        other++;
    }
    return *word == *other;
}

/* A word up to a space or the end of the line, which stays. */
static void read_word(char *word)
{
    size_t length = 0;
    while (peek() > ' ' && length < NAME_ROOM - 1)
        word[length++] = (char)next();
    word[length] = 0;
    if (length == 0 || peek() > ' ')
        text_is_wrong = 1;
}

static int digit_of(int byte)
{
    if (byte >= '0' && byte <= '9')
        return byte - '0';
    return byte >= 'a' && byte <= 'f' ? byte - 'a' + 10 : 16;
}

/* Whether the line has another number, behind one space. */
static int has_number(void)
{
    return peek() == ' ';
}

static uint64_t read_number(int base)
{
    uint64_t number = 0;
    expect(' ');
    if (digit_of(peek()) >= base)
        text_is_wrong = 1;
    while (digit_of(peek()) < base)
        number = number * (unsigned)base + (unsigned)digit_of(next());
    return number;
}

/* A length that no sum of lengths overflows. */
static size_t read_length(void)
{
    uint64_t length = read_number(10);
    if (length <= MOST_LENGTH)
        return (size_t)length;
    text_is_wrong = 1;
    return 0;
}

static void add_byte(struct text *text, int byte)
{
    if (text->length < text->room)
        text->bytes[text->length] = (uint8_t)byte;
    text->length++;
}

/* The rest of a line of a text, up to its line feed, which is its last byte unless a backslash stands before it. */
static void read_text_line(struct text *text)
{
    for (;;) {
        int byte = next();
        if (byte < 0) {
            text_is_wrong = 1;
            return;
        }
        if (byte == '\\' && peek() == '\n') {
            next();
            return;
        }
        if (byte == '\\') {
            int high = digit_of(next()), low = digit_of(next());
            text_is_wrong |= high > 15 || low > 15;
            add_byte(text, 16 * high + low);
            continue;
        }
        add_byte(text, byte);
        if (byte == '\n')
            return;
    }
}

/* The lines of a text, each behind a bar. */
static void read_text(struct text *text)
{
    text->length = 0;
    expect('\n');
    while (peek() == '|') {
        next();
        read_text_line(text);
    }
}

/* The length of a ledger, what it is filled with, and the numbers at its start. */
static void read_ledger(void)
{
    size_t length = read_length(), start = ledger_total;
    uint32_t fill = (uint32_t)read_number(10);
    if (ledger_count == MOST_LEDGERS) {
        text_is_wrong = 1;
        return;
    }
    ledgers[ledger_count].start = start;
    ledgers[ledger_count++].length = length;
    ledger_total += length;
    for (size_t k = start; k < ledger_total && k < TESTKIT_LEDGER_ROOM; k++)
        ledger_numbers[k] = fill;
    for (size_t k = start; has_number(); k++) {
        uint32_t number = (uint32_t)read_number(10);
        text_is_wrong |= k >= ledger_total;
        if (k < TESTKIT_LEDGER_ROOM)
            ledger_numbers[k] = number;
    }
}

/* The length of a buffer, and what each byte of it is. */
static void read_buffer(void)
{
    size_t length = read_length(), start = buffer_total;
    int fill = (int)read_number(10);
    if (buffer_count == MOST_BUFFERS) {
        text_is_wrong = 1;
        return;
    }
    buffers[buffer_count].start = start;
    buffers[buffer_count++].length = length;
    buffer_total += length;
    if (buffer_total <= TESTKIT_BUFFER_ROOM)
        memset(buffer_bytes + start, fill, length);
}

#ifndef PLANCHECK_BOX
/* Doubles, each by its bits. */
static void read_values(struct values *values)
{
    values->length = 0;
    while (has_number()) {
        uint64_t bits = read_number(16);
        if (values->length == MOST_VALUES) {
            text_is_wrong = 1;
            return;
        }
        memcpy(&values->metres[values->length++], &bits, sizeof bits);
    }
}
#endif

static void read_answer(void)
{
    char word[NAME_ROOM];
    expect(' ');
    read_word(word);
    uint32_t answer = 0;
    while (answer < ANSWERS && !is_same(word, answer_words[answer]))
        answer++;
    text_is_wrong |= answer == ANSWERS;
    expected.answer = answer;
    memset(expected.numbers, 0, sizeof expected.numbers);
    for (size_t k = 0; has_number(); k++) {
        uint64_t number = read_number(10);
        if (k < MOST_NUMBERS)
            expected.numbers[k] = number;
        else
            text_is_wrong = 1;
    }
}

/* A line of a case that is not one of a text; its line feed stays. False where there is no such line. */
static int read_field(const char *word)
{
    if (is_same(word, "ledger"))
        read_ledger();
    else if (is_same(word, "buffer"))
        read_buffer();
    else if (is_same(word, "boundary"))
        boundary = read_number(10);
    else if (is_same(word, "link"))
        link_number = read_number(10);
    else if (is_same(word, "half"))
        half = read_number(10);
    else if (is_same(word, "answer"))
        read_answer();
    else if (is_same(word, "call")) {
        expect(' ');
        read_word(call_name);
    } else
        return 0;
    return 1;
}

#ifdef PLANCHECK_BOX
/* Passes over a line of doubles, which only other calls use; its line feed stays. False where it is none. */
static int read_metres(const char *word)
{
    if (!is_same(word, "places") && !is_same(word, "advances") && !is_same(word, "red_lines") &&
        !is_same(word, "spacing"))
        return 0;
    while (peek() >= 0 && peek() != '\n')
        next();
    return 1;
}
#else
/* A line of doubles; its line feed stays. False where it is none. */
static int read_metres(const char *word)
{
    if (is_same(word, "places"))
        read_values(&places);
    else if (is_same(word, "advances"))
        read_values(&advances);
    else if (is_same(word, "red_lines"))
        read_values(&red_lines);
    else if (is_same(word, "spacing"))
        read_values(&spacing);
    else
        return 0;
    return 1;
}
#endif

/* Reads a case up to its checksum, which is its last line. */
static void read_case(void)
{
    char word[NAME_ROOM];
    ledger_count = ledger_total = buffer_count = buffer_total = 0;
    boundary = link_number = half = 0;
    call_name[0] = 0;
    expect(' ');
    read_word(case_name);
    expect('\n');
    while (!text_is_wrong) {
        read_word(word);
        if (is_same(word, "checksum"))
            break;
        if (is_same(word, "network"))
            read_text(&network);
        else if (is_same(word, "plan"))
            read_text(&plan);
        else if (is_same(word, "second"))
            read_text(&second);
        else if (read_field(word) || read_metres(word))
            expect('\n');
        else
            text_is_wrong = 1;
    }
    expected.checksum = read_number(16);
    expect('\n');
}

/* FNV-1a of 64 bits, over bytes and over numbers, the lowest byte first. */
static uint64_t add_to_checksum(uint64_t checksum, uint64_t number, int bytes)
{
    for (int k = 0; k < bytes; k++)
        checksum = (checksum ^ (number >> (8 * k) & 0xff)) * 0x100000001B3u;
    return checksum;
}

static uint64_t checksum_of_lent(void)
{
    uint64_t checksum = 0xCBF29CE484222325u;
    for (size_t k = 0; k < ledger_total; k++)
        checksum = add_to_checksum(checksum, ledger_numbers[k], 4);
    for (size_t k = 0; k < buffer_total; k++)
        checksum = add_to_checksum(checksum, buffer_bytes[k], 1);
    return checksum;
}

static uint32_t *ledger_of(size_t k)
{
    return ledger_numbers + (k < ledger_count ? ledgers[k].start : 0);
}

static size_t ledger_length_of(size_t k)
{
    return k < ledger_count ? ledgers[k].length : 0;
}

static uint8_t *buffer_of(size_t k)
{
    return buffer_bytes + (k < buffer_count ? buffers[k].start : 0);
}

static size_t buffer_length_of(size_t k)
{
    return k < buffer_count ? buffers[k].length : 0;
}

/* The answer to a call that was made: a refusal where the number is not 0. Its other members must then be 0. */
static struct told answered(uint32_t number, uint32_t line, uint32_t item, uint32_t answer, uint64_t others)
{
    struct told told;
    memset(&told, 0, sizeof told);
    told.checksum = checksum_of_lent();
    told.answer = number != 0 ? (uint32_t)REFUSED : answer;
    if (number != 0) {
        told.numbers[0] = number;
        told.numbers[1] = line;
        told.numbers[2] = item;
        told.rest = others;
    } else
        told.rest = line | item;
    return told;
}

/* The counts must have the same refusal, or none. */
static struct told ask_check_network(void)
{
    plancheck_network_result result = plancheck_check_network(network.bytes, network.length);
    plancheck_counts_result counts = plancheck_network_counts(network.bytes, network.length);
    uint64_t others = counts.links | counts.signals | counts.movements | counts.steps | counts.trams;
    others |= counts.past;
    struct told told = answered(result.number, result.line, result.item, ACCEPTED, others);
    told.rest |= (result.number ^ counts.number) | (result.line ^ counts.line) | (result.item ^ counts.item);
    return told;
}

static struct told plan_told(plancheck_plan_result result)
{
    uint64_t totals = result.admitted | result.let_out | result.inside | result.doubled_time;
    struct told told = answered(result.number, result.line, result.item, ACCEPTED, totals);
    if (result.number == 0) {
        told.numbers[0] = result.admitted;
        told.numbers[1] = result.let_out;
        told.numbers[2] = result.inside;
        told.numbers[3] = result.doubled_time;
    }
    return told;
}

static struct told ask_check_plan(void)
{
    return plan_told(plancheck_check_plan(network.bytes, network.length, plan.bytes, plan.length, ledger_of(0),
                                          ledger_length_of(0)));
}

static struct told ask_check_sheet(void)
{
    return plan_told(plancheck_check_sheet(network.bytes, network.length, plan.bytes, plan.length, second.bytes,
                                           second.length, ledger_of(0), ledger_length_of(0)));
}

static struct told ask_link_state(void)
{
    plancheck_link_result result =
        plancheck_link_state(network.bytes, network.length, ledger_of(0), ledger_length_of(0), (uint32_t)boundary,
                             (uint32_t)link_number);
    struct told told = answered(result.number, result.line, result.item, STATE, result.queued | result.in_transit);
    if (result.number == 0) {
        told.numbers[0] = result.queued;
        told.numbers[1] = result.in_transit;
    }
    return told;
}

static struct told text_told(plancheck_text_result result)
{
    struct told told = answered(result.number, result.line, result.item, WRITTEN, result.length);
    if (result.number == 0)
        told.numbers[0] = result.length;
    return told;
}

static struct told ask_carry_on(void)
{
    return text_told(plancheck_carry_on(network.bytes, network.length, (uint32_t)boundary, plan.bytes, plan.length,
                                        ledger_of(0), ledger_length_of(0), buffer_of(0), buffer_length_of(0)));
}

#ifndef PLANCHECK_BOX
static struct told ask_plan_from_listing(void)
{
    return text_told(plancheck_plan_from_listing(network.bytes, network.length, plan.bytes, plan.length, buffer_of(0),
                                                 buffer_length_of(0)));
}

static struct told ask_plan_from_sheet(void)
{
    return text_told(plancheck_plan_from_sheet(network.bytes, network.length, plan.bytes, plan.length, buffer_of(0),
                                               buffer_length_of(0)));
}

static struct told ask_compare_plans(void)
{
    plancheck_comparison_result result = plancheck_compare_plans(
        network.bytes, network.length, plan.bytes, plan.length, second.bytes, second.length, ledger_of(0),
        ledger_length_of(0), ledger_of(1), ledger_length_of(1));
    uint64_t others = result.order | (uint64_t)result.gap;
    struct told told = answered(result.number, result.line, result.item, COMPARED, others);
    if (result.number != 0)
        told.numbers[3] = result.plan;
    else {
        told.numbers[0] = result.order;
        told.numbers[1] = (uint64_t)result.gap;
        told.rest |= result.plan;
    }
    return told;
}

static struct told ask_split(void)
{
    plancheck_split_result result =
        plancheck_split(network.bytes, network.length, plan.bytes, plan.length, (uint32_t)half, buffer_of(0),
                        buffer_length_of(0), buffer_of(1), buffer_length_of(1), buffer_of(2), buffer_length_of(2),
                        buffer_of(3), buffer_length_of(3));
    uint64_t lengths = result.network_1 | result.plan_1 | result.network_2 | result.plan_2;
    struct told told = answered(result.number, result.line, result.item, SPLIT, lengths);
    if (result.number == 0) {
        told.numbers[0] = result.network_1;
        told.numbers[1] = result.plan_1;
        told.numbers[2] = result.network_2;
        told.numbers[3] = result.plan_2;
    }
    return told;
}

static struct told ask_run_cells(void)
{
    plancheck_cells_result result = plancheck_run_cells(network.bytes, network.length);
    struct told told =
        answered(result.number, result.line, result.item, RAN, result.cells | result.flow_in | result.flow_out);
    if (result.number == 0) {
        told.numbers[0] = result.cells;
        told.numbers[1] = result.flow_in;
        told.numbers[2] = result.flow_out;
    }
    for (size_t k = 0; k < PLANCHECK_MAX_CELLS; k++)
        told.checksum = add_to_checksum(told.checksum, result.volumes[k], 4);
    return told;
}

static struct told ask_step_vehicles(void)
{
    plancheck_network_result result =
        plancheck_step_vehicles(places.metres, places.length, advances.metres, advances.length, red_lines.metres,
                                red_lines.length, spacing.metres[0]);
    struct told told = answered(result.number, result.line, result.item, ACCEPTED, 0);
    for (size_t k = 0; k < places.length; k++) {
        uint64_t bits = 0x7FF8000000000000u; /* of any NaN */
        if (places.metres[k] == places.metres[k])
            memcpy(&bits, &places.metres[k], sizeof bits);
        told.checksum = add_to_checksum(told.checksum, bits, 8);
    }
    return told;
}
#endif

/* What the library answers, and the texts that its call uses beside the network's. */
struct call {
    const char *name;
    struct told (*ask)(void);
    int uses_plan, uses_second;
};

static const struct call calls[] = {
    {"check_network", ask_check_network, 0, 0},
    {"check_plan", ask_check_plan, 1, 0},
    {"check_sheet", ask_check_sheet, 1, 1},
    {"link_state", ask_link_state, 0, 0},
    {"carry_on", ask_carry_on, 1, 0},
#ifndef PLANCHECK_BOX
    {"plan_from_listing", ask_plan_from_listing, 1, 0},
    {"plan_from_sheet", ask_plan_from_sheet, 1, 0},
    {"compare_plans", ask_compare_plans, 1, 1},
    {"split", ask_split, 1, 0},
    {"run_cells", ask_run_cells, 0, 0},
    {"step_vehicles", ask_step_vehicles, 0, 0},
#endif
};

static void print_number(uint64_t number)
{
    char digits[21];
    char *first = digits + 20;
    *first = 0;
    do {
        *--first = (char)('0' + number % 10);
        number /= 10;
    } while (number != 0);
    testkit_print(first);
}

static void print_answer(const char *who, const struct told *told)
{
    testkit_print(who);
    testkit_print(answer_words[told->answer]);
    for (size_t k = 0; k < MOST_NUMBERS; k++) {
        testkit_print(" ");
        print_number(told->numbers[k]);
    }
}

static void tell_difference(const struct told *told, int same_answer)
{
    testkit_print("case ");
    testkit_print(case_name);
    testkit_print(", ");
    testkit_print(call_name);
    print_answer(": expected ", &expected);
    if (!same_answer)
        print_answer(", told ", told);
    else if (told->checksum != expected.checksum)
        testkit_print(", and what is written differs");
    else
        testkit_print(", and a member beside it is wrong");
    testkit_print("\n");
}

static void compare(struct told told)
{
    int same_answer = told.answer == expected.answer;
    for (size_t k = 0; k < MOST_NUMBERS; k++)
        same_answer &= told.numbers[k] == expected.numbers[k];
    cases_run++;
    if (same_answer && told.checksum == expected.checksum && told.rest == 0)
        return;
    cases_different++;
    if (cases_different <= DIFFERENCES_TOLD)
        tell_difference(&told, same_answer);
}

static int fits(const struct call *call)
{
    return network.length <= network.room && (!call->uses_plan || plan.length <= plan.room) &&
           (!call->uses_second || second.length <= second.room) && ledger_total <= TESTKIT_LEDGER_ROOM &&
           buffer_total <= TESTKIT_BUFFER_ROOM;
}

/* Has the library answer the case that was read, unless it is left out. */
static void run_case(void)
{
    size_t k = 0;
    while (k < sizeof calls / sizeof calls[0] && !is_same(call_name, calls[k].name))
        k++;
    if (k == sizeof calls / sizeof calls[0]) {
        cases_of_other_calls++;
    } else if (boundary > UINT32_MAX || link_number > UINT32_MAX) {
        cases_too_wide++;
    } else if (!fits(&calls[k])) {
        cases_too_long++;
    } else {
        compare(calls[k].ask());
    }
}

static void print_left_out(uint32_t count, const char *why)
{
    if (count == 0)
        return;
    print_number(count);
    testkit_print(why);
}

static int tell_wrong_text(void)
{
    testkit_print("the text of cases is not as it should be, in or above line ");
    print_number(text_line);
    testkit_print("\n");
    return 2;
}

/* Libraries of one major number give the same answers (CHANGELOG.md); one that lacks a call is not linked. */
static int is_other_version(void)
{
    return plancheck_version().major != PLANCHECK_VERSION_MAJOR;
}

int testkit_run(void)
{
    char word[NAME_ROOM];
    if (is_other_version()) {
        testkit_print("the library is of another major version than the header\n");
        return 2;
    }
    text_line = 1;
    read_word(word);
    uint64_t count = read_number(10);
    expect('\n');
    text_is_wrong |= !is_same(word, "cases");
    for (uint64_t k = 0; k < count && !text_is_wrong; k++) {
        read_word(word);
        text_is_wrong |= !is_same(word, "case");
        read_case();
        if (!text_is_wrong)
            run_case();
    }
    if (text_is_wrong || peek() >= 0)
        return tell_wrong_text();
    print_left_out(cases_of_other_calls, " left out: calls that a box has not\n");
    print_left_out(cases_too_wide, " left out: a boundary or link above 32 bits, which the calls do not take\n");
    print_left_out(cases_too_long, " left out: longer than the rooms of this program\n");
    print_number(cases_run);
    testkit_print(" cases, ");
    print_number(cases_different);
    testkit_print(" differ\n");
    return cases_run == 0 ? 2 : cases_different != 0;
}
