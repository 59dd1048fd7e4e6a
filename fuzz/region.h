/*
 * Memory that is lent to a call between two pages that nothing may touch: a read or a write one byte past either end stops the program. Texts are made
 * readable only, so that a write to one stops it too.
 */
#ifndef REGION_H
#define REGION_H

#include <stddef.h>
#include <stdint.h>
#include <stdio.h>
#include <stdlib.h>
#include <string.h>
#include <sys/mman.h>

#define PAGE ((size_t)4096)

struct region {
    uint8_t *pages; /* what may be touched */
    size_t size;    /* a multiple of a page */
};

static inline void stop(const char *words)
{
    fprintf(stderr, "fuzz: %s\n", words);
    abort();
}

/* A region with room for so many bytes. */
static inline struct region new_region(size_t bytes)
{
    size_t size = (bytes + PAGE) / PAGE * PAGE;
    uint8_t *pages = mmap(NULL, size + 2 * PAGE, PROT_NONE, MAP_PRIVATE | MAP_ANONYMOUS, -1, 0);
    if (pages == MAP_FAILED || mprotect(pages + PAGE, size, PROT_READ | PROT_WRITE) != 0)
        stop("there is no memory");
    return (struct region){pages + PAGE, size};
}

/* Where so many bytes stand: with their end at the page behind, or with their start at the page in front. */
static inline void *place(struct region region, size_t bytes, int at_end)
{
    if (bytes > region.size)
        stop("a region is too small");
    return region.pages + (at_end ? region.size - bytes : 0);
}

static inline void set_readable(struct region region)
{
    if (mprotect(region.pages, region.size, PROT_READ) != 0)
        stop("mprotect failed");
}

static inline void set_writable(struct region region)
{
    if (mprotect(region.pages, region.size, PROT_READ | PROT_WRITE) != 0)
        stop("mprotect failed");
}

/* Copies bytes into a region and makes it readable only. */
static inline const void *lend(struct region region, const void *bytes, size_t length, int at_end)
{
    set_writable(region);
    void *lent = place(region, length, at_end);
    if (length != 0)
        memcpy(lent, bytes, length);
    set_readable(region);
    return lent;
}

#endif
