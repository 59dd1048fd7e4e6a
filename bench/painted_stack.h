/*
 * What the measuring programs share: texts from files, and the stack that a call takes.
 */
#ifndef PAINTED_STACK_H
#define PAINTED_STACK_H

#include <stdint.h>
#include <stdio.h>
#include <stdlib.h>
#include <string.h>
#include <ucontext.h>

enum { TEXT_SIZE = 1 << 20, STACK_SIZE = 1 << 18 };

struct text {
    uint8_t bytes[TEXT_SIZE];
    size_t length;
};

static void fail(const char *problem)
{
    fprintf(stderr, "measure: %s\n", problem);
    exit(2);
}

static void read_file(const char *path, struct text *text)
{
    FILE *file = fopen(path, "rb");
    if (file == NULL)
        fail(path);
    text->length = fread(text->bytes, 1, TEXT_SIZE, file);
    if (ferror(file) || text->length == TEXT_SIZE)
        fail(path);
    fclose(file);
}

/* The function runs on a stack of its own, painted before; what has lost its paint was used. */

static uint8_t stack[STACK_SIZE];
static ucontext_t caller, callee;

static size_t painted_stack_used(void (*function)(void))
{
    const uint8_t paint = 0xA5;
    memset(stack, paint, STACK_SIZE);
    if (getcontext(&callee) != 0)
        fail("no context");
    callee.uc_stack.ss_sp = stack;
    callee.uc_stack.ss_size = STACK_SIZE;
    callee.uc_link = &caller;
    makecontext(&callee, function, 0);
    if (swapcontext(&caller, &callee) != 0)
        fail("no context");
    size_t unused = 0;
    while (unused < STACK_SIZE && stack[unused] == paint)
        unused++;
    return STACK_SIZE - unused;
}

#endif
