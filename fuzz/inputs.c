#include "inputs.h"

#include "region.h"

#include <math.h>

static uint64_t state;

void set_seed(uint64_t seed)
{
    state = seed;
}

/* splitmix64 */
static uint64_t next(void)
{
    state += 0x9e3779b97f4a7c15u;
    uint64_t mixed = state;
    mixed = (mixed ^ (mixed >> 30)) * 0xbf58476d1ce4e5b9u;
    mixed = (mixed ^ (mixed >> 27)) * 0x94d049bb133111ebu;
    return mixed ^ (mixed >> 31);
}

uint32_t below(uint32_t bound)
{
    return (uint32_t)(next() % bound);
}

void read_example(struct text *text, const char *folder, const char *name)
{
    char path[4096];
    snprintf(path, sizeof path, "%s/%s", folder, name);
    FILE *file = fopen(path, "rb");
    if (file == NULL)
        stop(path);
    text->length = fread(text->bytes, 1, TEXT_MAX, file);
    if (ferror(file) || text->length == TEXT_MAX)
        stop(path);
    fclose(file);
}

/* Puts bytes in the place of others; nothing happens where the text would grow too long. */
static void replace(struct text *text, size_t at, size_t removed, const void *bytes, size_t length)
{
    if (text->length - removed + length > TEXT_MAX)
        return;
    memmove(text->bytes + at + length, text->bytes + at + removed, text->length - at - removed);
    memcpy(text->bytes + at, bytes, length);
    text->length = text->length - removed + length;
}

/* The first place from this one on that has one of two bytes; the text's end if there is none. */
static size_t end_of(const struct text *text, size_t at, uint8_t first, uint8_t second)
{
    while (at < text->length && text->bytes[at] != first && text->bytes[at] != second)
        at++;
    return at;
}

void add_tram(struct text *network)
{
    char tram[32];
    int length = snprintf(tram, sizeof tram, "T\t%u\t%u\t%u\t%u\n", below(3), below(4), below(5), below(6));
    size_t end = end_of(network, 0, '\n', '\n'), tab = end;
    while (network->bytes[tab] != '\t')
        tab--;
    network->bytes[tab - 1] = '1';
    replace(network, end + 1, 0, tram, (size_t)length);
}

void cut_lines(struct text *text, uint32_t lines)
{
    size_t at = 0;
    for (uint32_t line = 0; line < lines && at < text->length; line++)
        at = end_of(text, at, '\n', '\n') + 1;
    text->length = at;
}

/* A number for a field: small, a limit of the format, or anything. */
static size_t some_number(char *digits, size_t room)
{
    static const char *const limits[] = {"0",     "1",     "2",          "8",           "24",         "60",           "61",        "120",
                                         "1000",  "3600",  "10000",      "10001",       "600000",     "72000000",     "4294967295", "4294967296",
                                         "00000", "0000000007", "00000000001", "9999999999", "2000000000", "99999999999", "",           "-1"};
    int length;
    switch (below(4)) {
    case 0:
        length = snprintf(digits, room, "%s", limits[below(sizeof limits / sizeof limits[0])]);
        break;
    case 1:
        length = snprintf(digits, room, "%u", (unsigned)next());
        break;
    default:
        length = snprintf(digits, room, "%u", below(130));
    }
    return (size_t)length;
}

/* A decimal for a line of a listing: whole volumes, others, and what is none. */
static size_t some_decimal(char *digits, size_t room)
{
    static const char *const decimals[] = {"0",         "1",           "0.5",         "00.5",  "0.25",  "0.0001", "0.00001", "0.000001", "0.1234567", "1.000000",
                                           "429496.72", "4294967.296", "9999999999.9", "1.",    ".5",    "-1",     "",        "1e3",      "10000000000"};
    return (size_t)snprintf(digits, room, "%s", decimals[below(sizeof decimals / sizeof decimals[0])]);
}

/* Another number in the place of one behind a tab, or of a listing's behind its space. */
static void damage_field(struct text *text)
{
    size_t parting = end_of(text, below((uint32_t)text->length), '\t', ' ');
    if (parting == text->length)
        return;
    char digits[16];
    size_t length = text->bytes[parting] == ' ' ? some_decimal(digits, sizeof digits) : some_number(digits, sizeof digits);
    replace(text, parting + 1, end_of(text, parting + 1, '\t', '\n') - parting - 1, digits, length);
}

static void damage_line(struct text *text)
{
    size_t start = end_of(text, below((uint32_t)text->length), '\n', '\n') + 1;
    if (start >= text->length)
        return;
    size_t length = end_of(text, start, '\n', '\n') + 1 - start;
    if (start + length > text->length)
        length = text->length - start;
    uint8_t line[4096];
    if (length > sizeof line)
        return;
    memcpy(line, text->bytes + start, length);
    if (below(2) == 0)
        replace(text, start, 0, line, length);
    else
        replace(text, start, length, "", 0);
}

static void damage_once(struct text *text)
{
    static const uint8_t bytes[] = {'\t', '\n', '0', '9', ' ', '\r', 0, 255, '.', '_', 'P', 'S', 'Q', 'x'};
    if (text->length == 0)
        return;
    uint32_t at = below((uint32_t)text->length);
    uint8_t byte = bytes[below(sizeof bytes)];
    switch (below(8)) {
    case 0:
        text->bytes[at] = byte;
        break;
    case 1:
        replace(text, at, 0, &byte, 1);
        break;
    case 2:
        replace(text, at, 1, "", 0);
        break;
    case 3:
        text->length = at;
        break;
    case 4:
        damage_line(text);
        break;
    default:
        damage_field(text);
    }
}

void damage(struct text *text)
{
    for (uint32_t times = below(4); times != 0; times--)
        damage_once(text);
}

double some_double(void)
{
    static const double special[] = {0.0, -0.0, 1e6, -1e6, 1000000.0000000001, 1e300, -1e-300, 5e-324, 2e6};
    uint32_t kind = below(40);
    if (kind == 0)
        return NAN;
    if (kind == 1)
        return below(2) == 0 ? INFINITY : -INFINITY;
    if (kind == 2)
        return special[below(sizeof special / sizeof special[0])];
    return (double)below(2000) / 8.0;
}
