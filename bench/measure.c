/*
 * One call of the library or of its twin, to be measured.
 *
 * measure call WHICH CALL NETWORK PLAN LEDGER_LEN    makes the call once and prints its answer (run it under callgrind)
 * measure stack WHICH CALL NETWORK PLAN LEDGER_LEN   prints the bytes of stack that the call uses
 * measure agree NETWORK PLAN SEED COUNT              compares library and twin on damaged copies of the texts
 *
 * WHICH is library or twin; CALL is check_network, check_plan or link_state (at the last boundary, of the last link, on
 * the ledger of the plan).
 */
#define _XOPEN_SOURCE 700
#include "painted_stack.h"
#include "twin.h"

#include <inttypes.h>
#include <stdbool.h>

struct implementation {
    const char *name;
    plancheck_network_result (*check_network)(const uint8_t *, size_t);
    plancheck_plan_result (*check_plan)(const uint8_t *, size_t, const uint8_t *, size_t, uint32_t *, size_t);
    plancheck_link_result (*link_state)(const uint8_t *, size_t, const uint32_t *, size_t, uint32_t, uint32_t);
};

static const struct implementation library = {"library", plancheck_check_network, plancheck_check_plan,
                                              plancheck_link_state};
static const struct implementation twin = {"twin", twin_check_network, twin_check_plan, twin_link_state};

enum { LEDGER_SIZE = PLANCHECK_LEDGER_MAX + 8 };

static struct text network, plan;
static uint32_t ledger[LEDGER_SIZE];

/* The call that is measured, with its arguments and its answer. */
enum call { CHECK_NETWORK, CHECK_PLAN, LINK_STATE };

static const char *const call_names[] = {"check_network", "check_plan", "link_state"};
static const struct implementation *implementation;
static enum call call;
static size_t ledger_len;
static uint32_t boundary, link_number;
static plancheck_network_result network_answer;
static plancheck_plan_result plan_answer;
static plancheck_link_result link_answer;

static void make_call(void)
{
    switch (call) {
    case CHECK_NETWORK:
        network_answer = implementation->check_network(network.bytes, network.length);
        break;
    case CHECK_PLAN:
        plan_answer =
            implementation->check_plan(network.bytes, network.length, plan.bytes, plan.length, ledger, ledger_len);
        break;
    case LINK_STATE:
        link_answer =
            implementation->link_state(network.bytes, network.length, ledger, ledger_len, boundary, link_number);
        break;
    }
}

static enum call call_named(const char *name)
{
    for (int i = CHECK_NETWORK; i <= LINK_STATE; i++)
        if (strcmp(name, call_names[i]) == 0)
            return (enum call)i;
    fail("no such call");
    return CHECK_NETWORK;
}

/* The state of a link is asked of a ledger that the other implementation has filled. */
static void prepare_call(char **arguments)
{
    implementation = strcmp(arguments[0], "library") == 0 ? &library : &twin;
    call = call_named(arguments[1]);
    read_file(arguments[2], &network);
    read_file(arguments[3], &plan);
    ledger_len = strtoul(arguments[4], NULL, 10);
    if (ledger_len > LEDGER_SIZE)
        fail("the ledger is too long");
    if (call == LINK_STATE) {
        const struct implementation *other = implementation == &library ? &twin : &library;
        other->check_plan(network.bytes, network.length, plan.bytes, plan.length, ledger, ledger_len);
        char counts[64] = "";
        memcpy(counts, network.bytes, network.length < sizeof counts ? network.length : sizeof counts - 1);
        if (sscanf(counts, "N\t%" SCNu32 "\t%*u\t%*u\t%" SCNu32, &link_number, &boundary) != 2)
            fail("the network has no counts");
    }
}

static void print_answer(void)
{
    switch (call) {
    case CHECK_NETWORK:
        printf("%" PRIu32 " %" PRIu32 " %" PRIu32 "\n", network_answer.number, network_answer.line,
               network_answer.item);
        break;
    case CHECK_PLAN:
        printf("%" PRIu32 " %" PRIu32 " %" PRIu32 "\n", plan_answer.number, plan_answer.line, plan_answer.item);
        break;
    case LINK_STATE:
        printf("%" PRIu32 " %" PRIu32 " %" PRIu32 "\n", link_answer.number, link_answer.line, link_answer.item);
        break;
    }
}

/* Stack. */

static plancheck_network_result empty_check_network(const uint8_t *text, size_t length)
{
    (void)text, (void)length;
    return (plancheck_network_result){0};
}

static plancheck_plan_result empty_check_plan(const uint8_t *text, size_t length, const uint8_t *second_text,
                                              size_t second_length, uint32_t *numbers, size_t count)
{
    (void)text, (void)length, (void)second_text, (void)second_length, (void)numbers, (void)count;
    return (plancheck_plan_result){0};
}

static plancheck_link_result empty_link_state(const uint8_t *text, size_t length, const uint32_t *numbers, size_t count,
                                              uint32_t row, uint32_t place)
{
    (void)text, (void)length, (void)numbers, (void)count, (void)row, (void)place;
    return (plancheck_link_result){0};
}

static const struct implementation empty = {"empty", empty_check_network, empty_check_plan, empty_link_state};

/* Bytes below the caller's stack pointer, the return address included: what the call takes beyond a call that does
   nothing, whose only use of the stack is its return address. */
static size_t stack_of_call(void)
{
    const struct implementation *measured = implementation;
    /* Once beforehand, so that memcpy and memset are bound. */
    make_call();
    implementation = &empty;
    size_t without = painted_stack_used(make_call);
    implementation = measured;
    return painted_stack_used(make_call) - without + sizeof(void *);
}

/* Agreement. */

static uint64_t chance_state;

/* xorshift64* */
static uint32_t chance(uint32_t below)
{
    chance_state ^= chance_state >> 12;
    chance_state ^= chance_state << 25;
    chance_state ^= chance_state >> 27;
    return (uint32_t)((chance_state * 0x2545F4914F6CDD1D) >> 33) % below;
}

/* Replaces the bytes from start to end. */
static void splice(struct text *text, size_t start, size_t end, const char *bytes)
{
    size_t count = strlen(bytes);
    if (text->length - (end - start) + count >= TEXT_SIZE)
        return;
    memmove(text->bytes + start + count, text->bytes + end, text->length - end);
    memcpy(text->bytes + start, bytes, count);
    text->length = text->length - (end - start) + count;
}

/* Changes a byte, a number, or the end of a text. */
static void damage(struct text *text)
{
    static const char *const numbers[] = {"0", "1", "2", "3", "7", "9", "60", "61", "1000", "3600", "3601", "10001",
                                          "600001", "2000000001", "4294967295", "4294967296", "01", "", "x", "\t"};
    static const char *const bytes[] = {"\t", "\n", "0", "5", "P", "", "-", "10"};
    if (text->length == 0)
        return;
    size_t at = chance((uint32_t)text->length);
    uint32_t kind = chance(16);
    if (kind == 0) {
        text->length = at;
    } else if (kind == 1) {
        splice(text, text->length, text->length, bytes[chance(8)]);
    } else if (kind < 5) {
        splice(text, at, at + chance(2), bytes[chance(8)]);
    } else {
        size_t start = at, end = at;
        while (start > 0 && text->bytes[start - 1] != '\t' && text->bytes[start - 1] != '\n')
            start--;
        while (end < text->length && text->bytes[end] != '\t' && text->bytes[end] != '\n')
            end++;
        splice(text, start, end, numbers[chance(20)]);
    }
}

static bool same_plan_answer(plancheck_plan_result a, plancheck_plan_result b)
{
    return a.number == b.number && a.line == b.line && a.item == b.item && a.admitted == b.admitted &&
           a.let_out == b.let_out && a.inside == b.inside && a.doubled_time == b.doubled_time;
}

static bool same_link_answer(plancheck_link_result a, plancheck_link_result b)
{
    return a.number == b.number && a.line == b.line && a.item == b.item && a.queued == b.queued &&
           a.in_transit == b.in_transit;
}

/* All three calls on both, and the whole ledger, also what lies behind the lent part. */
static bool agree_here(void)
{
    static uint32_t other_ledger[LEDGER_SIZE];
    plancheck_network_result a = library.check_network(network.bytes, network.length);
    plancheck_network_result b = twin.check_network(network.bytes, network.length);
    if (a.number != b.number || a.line != b.line || a.item != b.item)
        return false;
    size_t length = chance(4) == 0 ? chance(LEDGER_SIZE + 1) : PLANCHECK_LEDGER_MAX;
    for (size_t i = 0; i < LEDGER_SIZE; i++)
        ledger[i] = other_ledger[i] = 0xDEAD0000 + (uint32_t)i;
    if (!same_plan_answer(
            library.check_plan(network.bytes, network.length, plan.bytes, plan.length, ledger, length),
            twin.check_plan(network.bytes, network.length, plan.bytes, plan.length, other_ledger, length)) ||
        memcmp(ledger, other_ledger, sizeof ledger) != 0)
        return false;
    for (int i = 0; i < 4; i++) {
        uint32_t asked_boundary = chance(PLANCHECK_MAX_STEPS + 3), asked_link = chance(PLANCHECK_MAX_LINKS + 2);
        if (!same_link_answer(
                library.link_state(network.bytes, network.length, ledger, length, asked_boundary, asked_link),
                twin.link_state(network.bytes, network.length, ledger, length, asked_boundary, asked_link)))
            return false;
    }
    return true;
}

static void agree(char **arguments)
{
    static struct text network_before, plan_before;
    read_file(arguments[0], &network_before);
    read_file(arguments[1], &plan_before);
    chance_state = 2 * strtoull(arguments[2], NULL, 10) + 1;
    unsigned long count = strtoul(arguments[3], NULL, 10);
    for (unsigned long i = 0; i < count; i++) {
        network = network_before;
        plan = plan_before;
        /* The first copy is whole. */
        if (i > 0)
            damage(chance(2) == 0 ? &network : &plan);
        if (!agree_here()) {
            fprintf(stderr, "measure: library and twin differ on copy %lu of %s\n", i, arguments[0]);
            exit(1);
        }
    }
    printf("%lu\n", count);
}

int main(int count, char **arguments)
{
    if (count == 7 && strcmp(arguments[1], "call") == 0) {
        prepare_call(arguments + 2);
        make_call();
        print_answer();
    } else if (count == 7 && strcmp(arguments[1], "stack") == 0) {
        prepare_call(arguments + 2);
        printf("%zu\n", stack_of_call());
    } else if (count == 6 && strcmp(arguments[1], "agree") == 0) {
        agree(arguments + 2);
    } else {
        fail("usage: measure call|stack WHICH CALL NETWORK PLAN LEDGER_LEN, or measure agree NETWORK PLAN SEED COUNT");
    }
    return 0;
}
