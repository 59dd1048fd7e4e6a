/*
 * The plan check in plain C, written for few instructions: no heap, nothing kept between calls.
 *
 * - A text is cut behind its last line feed. Before the cut a run of digits always meets a line feed, so no place is
 *   held to the end of the text; a line that starts at or behind the cut is unfinished.
 * - Numbers are read by straight code, a digit after a digit. The byte behind one is looked at once: as the tab of the
 *   next, or as the line feed.
 * - A line is read and judged in one pass that only finds out whether all is well. Where it is not, once a call at most,
 *   `explain_line` and `explain_step` take the line again and find the first refusal in order.
 * - A signal is held as points in time: since when the phase and the cycle last, and until when they may. Where a tram
 *   claims it, these points move on with the time.
 * - The shares of a link sum to 1000, so rule 16 holds of all its movements just where, for each, volume × share of the
 *   first = volume of the first × share.
 * - The movements of a link stand together, so what they leave is added up in a register.
 * - What had entered by each past boundary is stored; times are counted from the first of them.
 *
 * Signals, links and movements are counted from 0 here, and from 1 in a refusal.
 */
#include "twin.h"

#include <stdbool.h>
#include <string.h>

#define INLINE static inline __attribute__((always_inline))
#define NOINLINE static __attribute__((noinline))
#define UNLIKELY(holds) __builtin_expect(holds, 0)

enum {
    MAX_PHASES = 8,
    MAX_PAST = 120,
    MAX_PLAN_NUMBERS = PLANCHECK_MAX_SIGNALS + 2 * PLANCHECK_MAX_LINKS + PLANCHECK_MAX_MOVEMENTS,
    HELD_LINE_MAX = 2 + 4 * PLANCHECK_MAX_SIGNALS + 2 * (2 * PLANCHECK_MAX_LINKS + PLANCHECK_MAX_MOVEMENTS)
};

/* number 0: passed */
struct refusal {
    uint32_t number, line, item;
};

struct signal {
    uint32_t mask, next_mask; /* of the phase shown and of the next */
    int32_t start, cycle_start; /* when the shown phase and the cycle began; below 0 before the plan */
    int32_t until; /* the latest end of a step that goes on with this phase */
    uint8_t phase, phases;
    uint16_t least_cycle, greatest_cycle;
    uint16_t least[MAX_PHASES], greatest[MAX_PHASES];
};

struct link {
    uint32_t capacity, standing, waiting;
    uint16_t travel_time, exit_rate;
    uint8_t signal; /* the number of signals where there is none */
    uint8_t mask; /* 255 where there is no signal */
    uint8_t movements; /* from this link */
};

struct movement {
    uint16_t rate, share;
    uint8_t from, to;
};

/* The steps are counted from 1. */
struct tram {
    uint8_t signal, first, last;
    uint32_t phase; /* counted from 1 */
};

struct network {
    uint32_t links, signals, movements, steps, trams, past;
    uint32_t shortest_greatest_time; /* of all phases of all signals, and 60 */
    bool valid_lengths; /* of the past steps */
    const uint8_t *first_step; /* where the S lines begin */
    struct tram tram[PLANCHECK_MAX_TRAMS];
    struct signal signal[PLANCHECK_MAX_SIGNALS];
    struct link link[PLANCHECK_MAX_LINKS];
    struct movement movement[PLANCHECK_MAX_MOVEMENTS];
    uint16_t time[MAX_PAST + PLANCHECK_MAX_STEPS + 1]; /* of each boundary, past ones first */
    uint32_t demand[PLANCHECK_MAX_LINKS]; /* of all steps */
    uint64_t entered[PLANCHECK_MAX_LINKS], left[PLANCHECK_MAX_LINKS]; /* when the past ends */
    uint32_t past_entered[MAX_PAST][PLANCHECK_MAX_LINKS]; /* by each boundary before that */
};

static struct refusal refuse(uint32_t number, uint32_t line, uint32_t item)
{
    return (struct refusal){number, line, item};
}

/* Reading. */

/* Behind the last line feed. */
static const uint8_t *cut(const uint8_t *text, size_t length)
{
    while (length > 0 && text[length - 1] != '\n')
        length--;
    return text + length;
}

#define DIGIT(place) \
    digit = (uint32_t)at[place] - '0'; \
    if (digit > 9) { \
        *number = value; \
        return at + (place); \
    } \
    value = 10 * value + digit;

/* Reads a tab and a number of 1 to 10 digits; an eleventh is neither a tab nor a line feed. A line feed stands at this
   place or behind it. NULL: no number. */
INLINE const uint8_t *read_number(const uint8_t *at, uint32_t *number)
{
    uint32_t digit, value;
    if (at[0] != '\t')
        return NULL;
    value = (uint32_t)at[1] - '0';
    if (value > 9)
        return NULL;
    DIGIT(2)
    DIGIT(3)
    DIGIT(4)
    DIGIT(5)
    DIGIT(6)
    DIGIT(7)
    DIGIT(8)
    DIGIT(9)
    digit = (uint32_t)at[10] - '0';
    if (digit > 9) {
        *number = value;
        return at + 10;
    }
    if (value > 429496729 || (value == 429496729 && digit > 5))
        return NULL;
    *number = 10 * value + digit;
    return at + 11;
}

static const uint8_t *read_numbers(const uint8_t *at, uint32_t *numbers, uint32_t count)
{
    for (uint32_t i = 0; i < count && at != NULL; i++)
        at = read_number(at, &numbers[i]);
    return at;
}

/* A tab and a number that have passed before. */
INLINE const uint8_t *read_again(const uint8_t *at, uint32_t *number)
{
    uint32_t value = (uint32_t)at[1] - '0', byte;
    at += 2;
    while ((byte = *at) >= '0') {
        value = 10 * value + byte - '0';
        at++;
    }
    *number = value;
    return at;
}

/* A tab and a number, where no line feed need follow. */
NOINLINE const uint8_t *read_number_before(const uint8_t *at, const uint8_t *end, uint32_t *number)
{
    if (at >= end || *at != '\t')
        return NULL;
    const uint8_t *start = ++at;
    uint64_t value = 0;
    while (at < end && (uint8_t)(*at - '0') <= 9 && at - start < 10)
        value = 10 * value + (uint8_t)(*at++ - '0');
    if (at == start || value > UINT32_MAX)
        return NULL;
    *number = (uint32_t)value;
    return at;
}

/* A whole line: a letter and so many numbers. Behind the cut there is none. */
static const uint8_t *read_line(const uint8_t *at, const uint8_t *text_cut, uint8_t letter, uint32_t *numbers,
                                uint32_t count)
{
    if (at >= text_cut || *at != letter)
        return NULL;
    at = read_numbers(at + 1, numbers, count);
    return at != NULL && *at == '\n' ? at + 1 : NULL;
}

/* The network. */

static bool is_span(uint32_t least, uint32_t greatest)
{
    return 1 <= least && least <= greatest && greatest <= 3600;
}

static void show(struct signal *signal)
{
    int32_t phase_end = signal->start + signal->greatest[signal->phase];
    int32_t cycle_end = signal->cycle_start + signal->greatest_cycle;
    signal->until = phase_end < cycle_end ? phase_end : cycle_end;
    signal->mask = 1u << signal->phase;
    signal->next_mask = signal->phase + 1 == signal->phases ? 1 : signal->mask << 1;
}

/* The first six numbers of a G line; a seventh field of it may be unfinished. */
static const uint8_t *read_signal_head(const uint8_t *at, const uint8_t *text_cut, const uint8_t *end, uint32_t *head)
{
    if (at >= end || *at != 'G')
        return NULL;
    at++;
    if (at < text_cut)
        at = read_numbers(at, head, 6);
    else
        for (uint32_t i = 0; i < 6 && at != NULL; i++)
            at = read_number_before(at, end, &head[i]);
    return at != NULL && (at >= end || *at == '\t' || *at == '\n') ? at : NULL;
}

static bool set_signal(struct network *network, struct signal *signal, const uint32_t *head, const uint32_t *times)
{
    uint32_t phases = head[2], phase = head[3] - 1, shown_for = head[4], cycle_clock = head[5];
    if (phase >= phases || !is_span(head[0], head[1]))
        return false;
    for (uint32_t k = 0; k < phases; k++) {
        uint32_t least = times[2 * k], greatest = times[2 * k + 1];
        if (!is_span(least, greatest))
            return false;
        signal->least[k] = (uint16_t)least;
        signal->greatest[k] = (uint16_t)greatest;
        if (greatest < network->shortest_greatest_time)
            network->shortest_greatest_time = greatest;
    }
    if (shown_for > signal->greatest[phase] || cycle_clock > head[1] || cycle_clock < shown_for ||
        (phase == 0 && cycle_clock != shown_for))
        return false;
    signal->least_cycle = (uint16_t)head[0];
    signal->greatest_cycle = (uint16_t)head[1];
    signal->phases = (uint8_t)phases;
    signal->phase = (uint8_t)phase;
    signal->start = -(int32_t)shown_for;
    signal->cycle_start = -(int32_t)cycle_clock;
    show(signal);
    return true;
}

/* A G line; where it is refused, *refused is the number. Its phases are judged as soon as the first seven fields are
   read. */
static const uint8_t *read_signal(struct network *network, struct signal *signal, const uint8_t *at,
                                  const uint8_t *text_cut, const uint8_t *end, uint32_t *refused)
{
    uint32_t head[6], times[2 * MAX_PHASES];
    *refused = 1;
    at = read_signal_head(at, text_cut, end, head);
    if (at == NULL)
        return NULL;
    if (head[2] < 2 || head[2] > MAX_PHASES) {
        *refused = 3;
        return NULL;
    }
    if (at >= text_cut || (at = read_numbers(at, times, 2 * head[2])) == NULL || *at != '\n')
        return NULL;
    *refused = 3;
    return set_signal(network, signal, head, times) ? at + 1 : NULL;
}

/* A T line, but for its phase. */
static bool set_tram(struct network *network, uint32_t index, const uint32_t *numbers)
{
    uint32_t signal = numbers[0] - 1, first = numbers[2], last = numbers[3];
    if (signal >= network->signals || first < 1 || first > last || last > network->steps)
        return false;
    for (uint32_t k = 0; k < index; k++) {
        const struct tram *before = &network->tram[k];
        if (before->signal == signal && before->first <= last && first <= before->last)
            return false;
    }
    network->tram[index] = (struct tram){(uint8_t)signal, (uint8_t)first, (uint8_t)last, numbers[1]};
    return true;
}

static bool set_link(const struct network *network, struct link *link, const uint32_t *numbers)
{
    uint32_t signal = numbers[3], mask = numbers[4];
    if (numbers[0] > 2000000000 || numbers[1] - 1 > 3599 || numbers[2] > 10000 || signal > network->signals ||
        numbers[5] > numbers[0])
        return false;
    link->capacity = numbers[0];
    link->travel_time = (uint16_t)numbers[1];
    link->exit_rate = (uint16_t)numbers[2];
    link->standing = numbers[5];
    link->waiting = numbers[6];
    link->movements = 0;
    if (signal == 0) {
        link->signal = (uint8_t)network->signals;
        link->mask = 255;
        return mask == 0;
    }
    link->signal = (uint8_t)(signal - 1);
    link->mask = (uint8_t)mask;
    return mask != 0 && mask >> network->signal[signal - 1].phases == 0;
}

static bool set_movement(struct network *network, uint32_t index, const uint32_t *numbers)
{
    uint32_t from = numbers[0] - 1, to = numbers[1] - 1;
    if (from >= network->links || to >= network->links || from == to || numbers[2] - 1 > 9999 || numbers[3] - 1 > 999)
        return false;
    struct movement *movement = &network->movement[index];
    if (index > 0 && (movement[-1].from > from || (movement[-1].from == from && movement[-1].to >= to)))
        return false;
    *movement = (struct movement){(uint16_t)numbers[2], (uint16_t)numbers[3], (uint8_t)from, (uint8_t)to};
    network->link[from].movements++;
    return true;
}

/* The shares of a link's movements sum to 1000. */
static struct refusal judge_shares(const struct network *network, uint32_t first_line)
{
    uint32_t j = 0;
    for (uint32_t i = 0; i < network->links; i++) {
        uint32_t end = j + network->link[i].movements, sum = 0;
        if (j == end)
            continue;
        for (; j < end; j++)
            sum += network->movement[j].share;
        if (sum != 1000)
            return refuse(5, first_line + j - 1, j);
    }
    return refuse(0, 0, 0);
}

/* The first refusal of an S line that does not pass. */
NOINLINE struct refusal explain_step(const struct network *network, const uint8_t *at, const uint8_t *text_cut,
                                     uint32_t line, uint32_t index)
{
    uint32_t numbers[1 + PLANCHECK_MAX_LINKS];
    if (read_line(at, text_cut, 'S', numbers, 1 + network->links) == NULL)
        return refuse(1, line, 0);
    return refuse(6, line, index + 1);
}

/* An H line. Its values are judged after all lines. */
static const uint8_t *read_past_step(struct network *network, const uint8_t *at, const uint8_t *text_cut, uint32_t index)
{
    uint32_t numbers[1 + 2 * PLANCHECK_MAX_LINKS];
    at = read_line(at, text_cut, 'H', numbers, 1 + 2 * network->links);
    if (at == NULL)
        return NULL;
    network->valid_lengths = network->valid_lengths && numbers[0] - 1 < 60;
    network->time[index + 1] = (uint16_t)(network->time[index] + numbers[0]);
    for (uint32_t i = 0; i < network->links; i++) {
        network->past_entered[index][i] = (uint32_t)network->entered[i];
        network->entered[i] += numbers[1 + 2 * i];
        network->left[i] += numbers[2 + 2 * i];
    }
    return at;
}

/* Where a link's travel time before a boundary ends: the step, and the seconds of it that have elapsed. Steps are counted
   from 0 and boundaries from the first past one. */
struct end {
    uint32_t step, length, elapsed;
};

static struct end find_end(const struct network *network, uint32_t boundary, uint32_t travel_time)
{
    const uint16_t *time = network->time;
    uint32_t latest = time[boundary] < travel_time ? 0 : time[boundary] - travel_time, step = 0;
    while (step + 1 < boundary && time[step + 1] <= latest)
        step++;
    return (struct end){step, (uint32_t)time[step + 1] - time[step], latest - time[step]};
}

/* What had arrived where the travel time ends in a step, times the step's length. */
static uint64_t arrived_parts(struct end end, uint32_t before, uint32_t after)
{
    return (uint64_t)before * end.length + (uint64_t)(after - before) * end.elapsed;
}

/* What had entered a link by a boundary that is not after the past, as the network has it. */
static uint32_t entered_in_past(const struct network *network, uint32_t boundary, uint32_t link)
{
    return boundary == network->past ? (uint32_t)network->entered[link] : network->past_entered[boundary][link];
}

/* A link when the past ends. */
static bool is_valid_start(const struct network *network, uint32_t index)
{
    const struct link *link = &network->link[index];
    uint64_t entered = network->entered[index], left = network->left[index];
    uint64_t most = 72000000 + (uint64_t)13800000 * network->past;
    if (entered - link->standing + link->waiting + network->demand[index] > most)
        return false;
    if (network->past == 0)
        return true;
    struct end end = find_end(network, network->past, link->travel_time);
    uint32_t before = entered_in_past(network, end.step, index), after = entered_in_past(network, end.step + 1, index);
    return left * end.length <= arrived_parts(end, before, after) && entered - left <= link->capacity;
}

static struct refusal judge_past(const struct network *network)
{
    bool valid = network->valid_lengths && network->past + network->steps <= PLANCHECK_MAX_STEPS;
    for (uint32_t i = 0; valid && i < network->links; i++)
        valid = is_valid_start(network, i);
    return valid ? refuse(0, 0, 0) : refuse(30, 0, 0);
}

/* An S line; its end, or NULL where it does not pass. The demands are added to those before. */
INLINE const uint8_t *read_step(const uint8_t *at, const uint8_t *text_cut, uint32_t *demands, uint32_t *demands_end,
                                uint32_t longest, uint32_t *length)
{
    if (UNLIKELY(at >= text_cut || *at != 'S'))
        return NULL;
    at = read_number(at + 1, length);
    if (UNLIKELY(at == NULL || *length - 1 >= longest))
        return NULL;
    do {
        uint32_t demand;
        at = read_number(at, &demand);
        if (UNLIKELY(at == NULL || demand > 600000))
            return NULL;
        *demands += demand;
    } while (++demands < demands_end);
    return *at == '\n' ? at + 1 : NULL;
}

static struct refusal read_steps(struct network *network, const uint8_t *at, const uint8_t *text_cut,
                                 const uint8_t *end, uint32_t line)
{
    uint32_t time = network->time[network->past], length;
    uint16_t *time_after = &network->time[network->past + 1];
    network->first_step = at;
    for (uint32_t k = 0; k < network->steps; k++, line++) {
        const uint8_t *start = at;
        at = read_step(at, text_cut, network->demand, network->demand + network->links,
                       network->shortest_greatest_time, &length);
        if (UNLIKELY(at == NULL))
            return explain_step(network, start, text_cut, line, k);
        time += length;
        time_after[k] = (uint16_t)time;
    }
    return at == end ? judge_past(network) : refuse(1, line, 0);
}

/* Reads and judges a network text. */
NOINLINE struct refusal read_network(struct network *network, const uint8_t *text, size_t length)
{
    const uint8_t *end = text + length, *text_cut = cut(text, length), *at;
    uint32_t numbers[7], refused, line = 2;
    if ((at = read_line(text, text_cut, 'N', numbers, 6)) == NULL)
        return refuse(1, 1, 0);
    if (numbers[0] - 1 >= PLANCHECK_MAX_LINKS || numbers[1] > PLANCHECK_MAX_SIGNALS ||
        numbers[2] > PLANCHECK_MAX_MOVEMENTS || numbers[3] - 1 >= PLANCHECK_MAX_STEPS ||
        numbers[4] > PLANCHECK_MAX_TRAMS || numbers[5] > MAX_PAST)
        return refuse(2, 1, 0);
    network->links = numbers[0];
    network->signals = numbers[1];
    network->movements = numbers[2];
    network->steps = numbers[3];
    network->trams = numbers[4];
    network->past = numbers[5];
    network->shortest_greatest_time = 60;
    network->valid_lengths = true;
    network->time[0] = 0;

    for (uint32_t k = 0; k < network->trams; k++, line++) {
        if ((at = read_line(at, text_cut, 'T', numbers, 4)) == NULL)
            return refuse(1, line, 0);
        if (!set_tram(network, k, numbers))
            return refuse(28, line, 0);
    }
    for (uint32_t i = 0; i < network->signals; i++, line++) {
        at = read_signal(network, &network->signal[i], at, text_cut, end, &refused);
        if (at == NULL)
            return refuse(refused, line, refused == 1 ? 0 : i + 1);
    }
    for (uint32_t k = 0; k < network->trams; k++)
        if (network->tram[k].phase - 1 >= network->signal[network->tram[k].signal].phases)
            return refuse(28, 2 + k, 0);
    for (uint32_t i = 0; i < network->links; i++, line++) {
        if ((at = read_line(at, text_cut, 'Q', numbers, 7)) == NULL)
            return refuse(1, line, 0);
        if (!set_link(network, &network->link[i], numbers))
            return refuse(4, line, i + 1);
        network->entered[i] = network->link[i].standing;
        network->left[i] = 0;
        network->demand[i] = 0;
    }
    for (uint32_t j = 0; j < network->movements; j++, line++) {
        if ((at = read_line(at, text_cut, 'M', numbers, 4)) == NULL)
            return refuse(1, line, 0);
        if (!set_movement(network, j, numbers))
            return refuse(5, line, j + 1);
    }
    struct refusal refusal = judge_shares(network, line - network->movements);
    if (refusal.number != 0)
        return refusal;
    for (uint32_t h = 0; h < network->past; h++, line++)
        if ((at = read_past_step(network, at, text_cut, h)) == NULL)
            return refuse(1, line, 0);
    return read_steps(network, at, text_cut, end, line);
}

plancheck_network_result twin_check_network(const uint8_t *network_text, size_t network_len)
{
    struct network network;
    struct refusal refusal = read_network(&network, network_text, network_len);
    return (plancheck_network_result){refusal.number, refusal.line, refusal.item};
}

/* The plan. */

/* What trams ask of the signals in a step, and until which step they ask the same. */
struct claims {
    uint32_t signals; /* a bit for each that is claimed */
    uint32_t mask[PLANCHECK_MAX_SIGNALS];
    uint32_t changed_at;
};

/* One link: what has entered and left it, what waits at its entry, and the step in which its travel time ends. */
struct row {
    uint32_t entered, left, waiting;
    const uint16_t *end; /* that step's first boundary, among the times */
    const uint32_t *entered_by_end; /* what had entered by then, in the ledger or in the past */
};

/* A plan that is judged, as far as it has passed. */
struct run {
    struct network network;
    struct claims claims;
    struct row row[PLANCHECK_MAX_LINKS];
    uint32_t shown[PLANCHECK_MAX_SIGNALS + 1]; /* masks; the last, of links without a signal, is 255 */
    uint32_t *ledger;
    const uint16_t *time; /* of the boundaries from 0 on */
};

NOINLINE void find_claims(const struct network *network, struct claims *claims, uint32_t step)
{
    claims->signals = 0;
    claims->changed_at = PLANCHECK_MAX_STEPS + 1;
    for (const struct tram *tram = network->tram, *end = tram + network->trams; tram < end; tram++) {
        uint32_t change = tram->first;
        if (step > tram->last)
            continue;
        if (step >= tram->first) {
            claims->signals |= 1u << tram->signal;
            claims->mask[tram->signal] = 1u << (tram->phase - 1);
            change = tram->last + 1u;
        }
        if (change < claims->changed_at)
            claims->changed_at = change;
    }
}

/* Rules 10, 29 and 11 to 14, in order. The signals are as before the step. */
static struct refusal explain_signals(const struct run *run, const uint32_t *mask, uint32_t n)
{
    const struct signal *signals = run->network.signal;
    uint32_t count = run->network.signals, claimed = run->claims.signals;
    int32_t before = run->time[n - 1], after = run->time[n];
    for (uint32_t i = 0; i < count; i++)
        if (mask[i] == 0 || (mask[i] & (mask[i] - 1)) != 0 || mask[i] >> signals[i].phases != 0)
            return refuse(10, n, i + 1);
    for (uint32_t i = 0; i < count; i++)
        if ((claimed >> i & 1) != 0 && mask[i] != run->claims.mask[i])
            return refuse(29, n, i + 1);
    for (uint32_t rule = 11; rule <= 14; rule++)
        for (uint32_t i = 0; i < count; i++) {
            if ((claimed >> i & 1) != 0)
                continue;
            const struct signal *signal = &signals[i];
            bool goes_on = mask[i] == signal->mask, begins_cycle = !goes_on && mask[i] == 1;
            uint32_t phase = goes_on ? signal->phase : begins_cycle ? 0 : signal->phase + 1u;
            int32_t start = goes_on ? signal->start : before, cycle_start = begins_cycle ? before : signal->cycle_start;
            bool kept[] = {
                goes_on || mask[i] == signal->next_mask,
                goes_on || before >= signal->start + signal->least[signal->phase],
                rule < 13 || after <= start + signal->greatest[phase],
                (!begins_cycle || before >= signal->cycle_start + signal->least_cycle) &&
                    after <= cycle_start + signal->greatest_cycle,
            };
            if (!kept[rule - 11])
                return refuse(rule, n, i + 1);
        }
    return refuse(0, 0, 0);
}

/* Rules 15, 25 to 27 and 16, in order; rule 15 has passed at the links before `judged`. */
static struct refusal explain_flows(const struct run *run, const uint32_t *numbers, const uint8_t *step_line, uint32_t n,
                                    uint32_t judged, uint32_t *moved_from, uint32_t *moved_to)
{
    const struct network *network = &run->network;
    const uint32_t *mask = numbers, *admitted = mask + network->signals, *let_out = admitted + network->links,
                   *moved = let_out + network->links;
    uint32_t length, demand;
    step_line = read_again(step_line + 1, &length);
    for (uint32_t i = 0; i < network->links; i++) {
        step_line = read_again(step_line, &demand);
        if (i >= judged && admitted[i] > run->row[i].waiting + demand)
            return refuse(15, n, i + 1);
    }
    for (uint32_t i = 0; i < network->links; i++)
        if (let_out[i] > network->link[i].exit_rate * length)
            return refuse(25, n, i + 1);
    for (uint32_t j = 0; j < network->movements; j++)
        if (moved[j] > network->movement[j].rate * length)
            return refuse(26, n, j + 1);
    for (uint32_t j = 0; j < network->movements; j++) {
        const struct movement *movement = &network->movement[j];
        const struct link *from = &network->link[movement->from];
        uint32_t shown = from->signal == network->signals ? 255 : mask[from->signal];
        if (moved[j] != 0 && (from->mask & shown) == 0)
            return refuse(27, n, j + 1);
        moved_from[movement->from] += moved[j];
        moved_to[movement->to] += moved[j];
    }
    for (uint32_t j = 0; j < network->movements; j++) {
        const struct movement *movement = &network->movement[j];
        if ((uint64_t)1000 * moved[j] > (uint64_t)movement->share * moved_from[movement->from])
            return refuse(16, n, j + 1);
    }
    return refuse(0, 0, 0);
}

/* What had entered a link by a boundary, counted from the first past one. */
static uint32_t entered_by(const struct run *run, uint32_t boundary, uint32_t link)
{
    const struct network *network = &run->network;
    if (boundary < network->past)
        return network->past_entered[boundary][link];
    return run->ledger[2 * ((size_t)(boundary - network->past) * network->links + link)];
}

/* The first refusal of a plan line that does not pass. */
NOINLINE struct refusal explain_line(const struct run *run, const uint8_t *at, const uint8_t *text_cut,
                                     const uint8_t *step_line, uint32_t n, uint32_t judged)
{
    const struct network *network = &run->network;
    uint32_t numbers[MAX_PLAN_NUMBERS], links = network->links;
    uint32_t moved_from[PLANCHECK_MAX_LINKS] = {0}, moved_to[PLANCHECK_MAX_LINKS] = {0};
    if (read_line(at, text_cut, 'P', numbers, network->signals + 2 * links + network->movements) == NULL)
        return refuse(9, n, 0);
    struct refusal refusal = explain_signals(run, numbers, n);
    if (refusal.number == 0)
        refusal = explain_flows(run, numbers, step_line, n, judged, moved_from, moved_to);
    if (refusal.number != 0)
        return refusal;
    const uint32_t *admitted = numbers + network->signals, *let_out = admitted + links;
    const uint32_t *row_before = run->ledger + 2 * (size_t)(n - 1) * links;
    for (uint32_t i = 0; i < links; i++) {
        uint32_t entered = row_before[2 * i] + admitted[i] + moved_to[i];
        uint32_t left = row_before[2 * i + 1] + let_out[i] + moved_from[i];
        struct end end = find_end(network, network->past + n, network->link[i].travel_time);
        uint32_t after = end.step + 1 == network->past + n ? entered : entered_by(run, end.step + 1, i);
        if ((uint64_t)left * end.length > arrived_parts(end, entered_by(run, end.step, i), after))
            return refuse(17, n, i + 1);
    }
    for (uint32_t i = 0; i < links; i++)
        if (row_before[2 * i] + admitted[i] + moved_to[i] - row_before[2 * i + 1] > network->link[i].capacity)
            return refuse(18, n, i + 1);
    return refuse(0, 0, 0);
}

/* Whether a signal may change its phase for a step. */
static bool may_change(const struct signal *signal, uint32_t mask, int32_t before, int32_t after)
{
    if (mask != signal->next_mask || before < signal->start + signal->least[signal->phase])
        return false;
    if (mask == 1 && before < signal->cycle_start + signal->least_cycle)
        return false;
    uint32_t phase = mask == 1 ? 0 : signal->phase + 1u;
    int32_t cycle_start = mask == 1 ? before : signal->cycle_start;
    return after <= before + signal->greatest[phase] && after <= cycle_start + signal->greatest_cycle;
}

/* It does so once the whole step has passed. */
static void change(struct signal *signal, uint32_t mask, int32_t before)
{
    if (mask == 1) {
        signal->phase = 0;
        signal->cycle_start = before;
    } else {
        signal->phase++;
    }
    signal->start = before;
    show(signal);
}

/* A signal whose time stands still for so many seconds. */
static void move_on(struct signal *signal, int32_t seconds)
{
    signal->start += seconds;
    signal->cycle_start += seconds;
    signal->until += seconds;
}

/* The masks of a line: rules 10, 29 and 11 to 14. *changed: a bit for each signal that changes. */
INLINE const uint8_t *read_masks(struct run *run, const uint8_t *at, int32_t before, int32_t after, uint32_t *changed)
{
    uint32_t claimed = run->claims.signals, count = run->network.signals;
    for (uint32_t i = 0; i < count; i++) {
        struct signal *signal = &run->network.signal[i];
        uint32_t mask;
        at = read_number(at, &mask);
        if (UNLIKELY(at == NULL))
            return NULL;
        run->shown[i] = mask;
        if ((claimed >> i & 1) != 0) {
            if (UNLIKELY(mask != run->claims.mask[i]))
                return NULL;
        } else if (mask == signal->mask) {
            if (UNLIKELY(after > signal->until))
                return NULL;
        } else {
            if (UNLIKELY(!may_change(signal, mask, before, after)))
                return NULL;
            *changed |= 1u << i;
        }
    }
    return at;
}

/* The movements of a line: rules 26, 27 and 16. */
NOINLINE const uint8_t *read_movements(struct run *run, const uint8_t *at, uint32_t length)
{
    const struct network *network = &run->network;
    const struct movement *movement = network->movement;
    struct row *row = run->row;
    for (const struct link *link = network->link, *end = link + network->links; link < end; link++, row++) {
        uint32_t first, next;
        if (link->movements == 0)
            continue;
        const struct movement *movements_end = movement + link->movements;
        if ((link->mask & run->shown[link->signal]) == 0) {
            do {
                at = read_number(at, &first);
                if (UNLIKELY(at == NULL || first != 0))
                    return NULL;
            } while (++movement < movements_end);
            continue;
        }
        uint32_t first_share = movement->share, sum;
        at = read_number(at, &first);
        if (UNLIKELY(at == NULL || first > movement->rate * length))
            return NULL;
        run->row[movement->to].entered += first;
        sum = first;
        while (++movement < movements_end) {
            at = read_number(at, &next);
            if (UNLIKELY(at == NULL || next > movement->rate * length || next * first_share != first * movement->share))
                return NULL;
            run->row[movement->to].entered += next;
            sum += next;
        }
        row->left += sum;
    }
    return at;
}

/* Where what had entered by the next boundary is found. */
INLINE const uint32_t *next_entered(const struct run *run, const struct row *row, const uint16_t *end, size_t width)
{
    if (end >= run->time)
        return row->entered_by_end + width;
    return end + 1 == run->time ? run->ledger + 2 * (row - run->row) : row->entered_by_end + PLANCHECK_MAX_LINKS;
}

/* Rules 17 and 18 on all links, once the row is formed. Of what enters in the step in which the travel time ends, the
   elapsed part has arrived, so that both sides are multiplied by its length. */
NOINLINE bool links_keep(struct run *run, const uint32_t *row_before, const uint16_t *now)
{
    size_t width = 2 * (size_t)run->network.links;
    struct row *row = run->row;
    for (const struct link *link = run->network.link, *links_end = link + run->network.links; link < links_end; link++) {
        int32_t latest = *now - link->travel_time;
        const uint16_t *end = row->end;
        while (end[1] <= latest) {
            row->entered_by_end = next_entered(run, row, end, width);
            end++;
        }
        row->end = end;
        uint32_t before = *row->entered_by_end;
        if (row->left > before) {
            uint32_t after = end + 1 == now ? row->entered : *next_entered(run, row, end, width);
            uint32_t elapsed = latest < 0 ? 0 : (uint32_t)latest - *end, length = (uint32_t)end[1] - *end;
            if ((uint64_t)(row->left - before) * length > (uint64_t)(after - before) * elapsed)
                return false;
        }
        if (UNLIKELY(row->entered - row_before[1] > link->capacity))
            return false;
        row++;
        row_before += 2;
    }
    return true;
}

static void write_row(uint32_t *out, const struct row *row, const struct row *end)
{
    for (; row < end; row++, out += 2) {
        out[0] = row->entered;
        out[1] = row->left;
    }
}

/* The line that an empty plan text stands for in every step: each signal keeps its phase, and every volume is 0. */
static const uint8_t *write_held_line(const struct network *network, uint8_t *at)
{
    *at++ = 'P';
    for (uint32_t i = 0; i < network->signals; i++) {
        uint32_t mask = network->signal[i].mask;
        *at++ = '\t';
        *at++ = (uint8_t)('0' + mask / 100);
        *at++ = (uint8_t)('0' + mask / 10 % 10);
        *at++ = (uint8_t)('0' + mask % 10);
    }
    for (uint32_t k = 0; k < 2 * network->links + network->movements; k++) {
        *at++ = '\t';
        *at++ = '0';
    }
    *at++ = '\n';
    return at;
}

static plancheck_plan_result plan_refused(struct refusal refusal)
{
    return (plancheck_plan_result){refusal.number, refusal.line, refusal.item, 0, 0, 0, 0};
}

plancheck_plan_result twin_check_plan(const uint8_t *network_text, size_t network_len, const uint8_t *plan_text,
                                      size_t plan_len, uint32_t *ledger, size_t ledger_len)
{
    struct run run;
    struct network *network = &run.network;
    struct refusal refusal = read_network(network, network_text, network_len);
    if (refusal.number != 0)
        return plan_refused(refusal);
    uint32_t links = network->links, steps = network->steps;
    if (ledger_len < PLANCHECK_LEDGER_LEN(links, steps))
        return plan_refused(refuse(8, 0, 0));

    plancheck_plan_result result = {0, 0, 0, 0, 0, 0, 0};
    struct row *row = run.row, *row_end = row + links;
    uint64_t under_way = 0; /* in the network or waiting outside */
    for (uint32_t i = 0; i < links; i++) {
        uint32_t entered = (uint32_t)network->entered[i], left = (uint32_t)network->left[i];
        uint32_t waiting = network->link[i].waiting;
        const uint32_t *entered_first = network->past != 0 ? &network->past_entered[0][i] : ledger + 2 * i;
        row[i] = (struct row){entered, left, waiting, network->time, entered_first};
        result.inside += entered - left;
        under_way += waiting;
    }
    under_way += result.inside;
    write_row(ledger, row, row_end);
    run.ledger = ledger;
    run.time = network->time + network->past;
    for (uint32_t i = 0; i < network->signals; i++)
        move_on(&network->signal[i], run.time[0]);
    run.shown[network->signals] = 255;
    find_claims(network, &run.claims, 1);

    uint8_t held[HELD_LINE_MAX];
    bool holds = plan_len == 0;
    const uint8_t *at = holds ? held : plan_text;
    const uint8_t *text_cut = holds ? write_held_line(network, held) : cut(plan_text, plan_len);
    const uint8_t *step_at = network->first_step;
    const uint32_t *row_before = ledger;
    for (uint32_t n = 1; n <= steps; n++) {
        const uint8_t *line = at, *step_line = step_at;
        struct row *judged = row;
        int32_t before = run.time[n - 1], after = run.time[n];
        uint32_t length = (uint32_t)(after - before), volume, changed = 0;
        if (n == run.claims.changed_at)
            find_claims(network, &run.claims, n);
        if (UNLIKELY(at >= text_cut || *at != 'P' ||
                     (at = read_masks(&run, at + 1, before, after, &changed)) == NULL))
            goto explain;

        uint32_t demanded = 0, let_out = 0; /* at most 24 × 600,000 */
        uint64_t admitted = 0;
        step_at = read_again(step_at + 1, &volume);
        for (; judged < row_end; judged++) {
            uint32_t demand;
            step_at = read_again(step_at, &demand);
            uint32_t at_entry = judged->waiting + demand;
            at = read_number(at, &volume);
            if (UNLIKELY(at == NULL || volume > at_entry))
                goto explain;
            judged->waiting = at_entry - volume;
            judged->entered += volume;
            demanded += demand;
            admitted += volume;
        }
        step_at++;
        const struct link *link = network->link;
        for (struct row *one = row; one < row_end; one++, link++) {
            at = read_number(at, &volume);
            if (UNLIKELY(at == NULL || volume > link->exit_rate * length))
                goto explain;
            one->left += volume;
            let_out += volume;
        }
        at = read_movements(&run, at, length);
        if (UNLIKELY(at == NULL || *at != '\n' || !links_keep(&run, row_before, &run.time[n])))
            goto explain;

        at = holds ? held : at + 1;
        row_before += 2 * (size_t)links;
        write_row(ledger + 2 * (size_t)n * links, row, row_end);
        result.admitted += admitted;
        result.let_out += let_out;
        uint64_t under_way_before = under_way;
        under_way = under_way + demanded - let_out;
        result.inside = result.inside + admitted - let_out;
        result.doubled_time += length * (under_way_before + under_way);
        uint32_t claimed = run.claims.signals;
        for (uint32_t i = 0; (changed | claimed) >> i != 0; i++) {
            struct signal *signal = &network->signal[i];
            if ((changed >> i & 1) != 0)
                change(signal, run.shown[i], before);
            if ((claimed >> i & 1) != 0)
                move_on(signal, (int32_t)length);
        }
        continue;
    explain:
        return plan_refused(explain_line(&run, line, text_cut, step_line, n, (uint32_t)(judged - row)));
    }
    if (!holds && at != plan_text + plan_len)
        return plan_refused(refuse(9, steps + 1, 0));
    return result;
}

static plancheck_link_result link_refused(struct refusal refusal)
{
    return (plancheck_link_result){refusal.number, refusal.line, refusal.item, 0, 0};
}

plancheck_link_result twin_link_state(const uint8_t *network_text, size_t network_len, const uint32_t *ledger,
                                      size_t ledger_len, uint32_t boundary, uint32_t link)
{
    struct network network;
    struct refusal refusal = read_network(&network, network_text, network_len);
    if (refusal.number != 0)
        return link_refused(refusal);
    if (ledger_len < PLANCHECK_LEDGER_LEN(network.links, network.steps))
        return link_refused(refuse(8, 0, 0));
    if (boundary > network.steps)
        return link_refused(refuse(19, 0, 0));
    if (link < 1 || link > network.links)
        return link_refused(refuse(20, 0, 0));

    size_t row_length = 2 * (size_t)network.links, place = 2 * (size_t)(link - 1);
    uint32_t entered = ledger[boundary * row_length + place];
    uint32_t left = ledger[boundary * row_length + place + 1];
    uint32_t travel_time = network.link[link - 1].travel_time;
    struct end end = find_end(&network, network.past + boundary, travel_time);
    uint32_t before = network.link[link - 1].standing, after = before;
    if (network.time[network.past + boundary] - network.time[network.past] >= (int32_t)travel_time) {
        const uint32_t *row = ledger + (end.step - network.past) * row_length + place;
        before = *row;
        after = end.elapsed == 0 ? before : row[row_length];
    } else if (end.step < network.past) {
        before = entered_in_past(&network, end.step, link - 1);
        after = entered_in_past(&network, end.step + 1, link - 1);
    }
    if (after < before)
        return link_refused(refuse(21, 0, 0));
    uint64_t arrived = arrived_parts(end, before, after);
    if ((uint64_t)left * end.length > arrived || arrived > (uint64_t)entered * end.length)
        return link_refused(refuse(21, 0, 0));
    uint32_t whole = (uint32_t)(arrived / end.length);
    return (plancheck_link_result){0, 0, 0, whole - left, entered - whole};
}
