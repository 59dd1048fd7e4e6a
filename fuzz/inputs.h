/* Inputs from a seed: texts of the examples, damaged in many ways, and values of vehicles. */
#ifndef INPUTS_H
#define INPUTS_H

#include <stddef.h>
#include <stdint.h>

#define TEXT_MAX ((size_t)20000)

struct text {
    uint8_t bytes[TEXT_MAX];
    size_t length;
};

/* A network with a plan and a listing for it. */
struct example {
    struct text network, plan, listing;
};

void set_seed(uint64_t seed);

/* A number from 0 to below a bound. */
uint32_t below(uint32_t bound);

/* Reads a file that is there; stops the program if it is not. */
void read_example(struct text *text, const char *folder, const char *name);

/* Puts a tram line into a network text that has none: its signal, phase and steps are small numbers. */
void add_tram(struct text *network);

/* Keeps so many lines of a text, or all of them where it has fewer. */
void cut_lines(struct text *text, uint32_t lines);

/* Changes a text in zero to a few places: bytes, fields, lines, its end. */
void damage(struct text *text);

/* A double that a step of vehicles may be given: mostly a place on a street, sometimes a limit, an infinity or no number. */
double some_double(void);

#endif
