/*
 * Runs the cases on a Cortex-M or RISC-V by semihosting, under a debugger or in qemu: words go to the host, and the cases
 * come from the host's file TESTKIT_FILE, or with TESTKIT_IN_MEMORY from memory, where cases.S puts that file. The
 * start of the board and its linker script are the board's own.
 */
#include "testkit.h"

#include <stdint.h>

#ifdef __riscv

/* Three instructions that stand together tell it from another stop of the debugger. */
static uint32_t semihosting(uint32_t operation, const void *argument)
{
    register uint32_t a0 __asm__("a0") = operation;
    register const void *a1 __asm__("a1") = argument;
    __asm__ volatile(".balign 16\n .option push\n .option norvc\n slli zero, zero, 0x1f\n ebreak\n srai zero, zero, 7\n"
                     ".option pop"
                     : "+r"(a0)
                     : "r"(a1)
                     : "memory");
    return a0;
}

#else

static uint32_t semihosting(uint32_t operation, const void *argument)
{
    register uint32_t r0 __asm__("r0") = operation;
    register const void *r1 __asm__("r1") = argument;
    __asm__ volatile("bkpt 0xab" : "+r"(r0) : "r"(r1) : "memory");
    return r0;
}

#endif

void testkit_print(const char *words)
{
    enum { SYS_WRITE0 = 4 };
    semihosting(SYS_WRITE0, words);
}

#ifdef TESTKIT_IN_MEMORY

#include <string.h>

extern const char testkit_cases[], testkit_cases_end[];

size_t testkit_read(char *bytes, size_t room)
{
    static size_t place;
    size_t left = (size_t)(testkit_cases_end - testkit_cases) - place;
    size_t length = left < room ? left : room;
    memcpy(bytes, testkit_cases + place, length);
    place += length;
    return length;
}

int main(void)
{
    return testkit_run();
}

#else

static uint32_t file;

size_t testkit_read(char *bytes, size_t room)
{
    enum { SYS_READ = 6 };
    const struct {
        uint32_t file;
        char *bytes;
        uint32_t room;
    } asked = {file, bytes, (uint32_t)room};
    uint32_t not_read = semihosting(SYS_READ, &asked);
    return not_read <= room ? room - not_read : 0;
}

int main(void)
{
    enum { SYS_OPEN = 1, FOR_BYTES = 1 };
    static const char name[] = TESTKIT_FILE;
    const struct {
        const char *name;
        uint32_t mode, length;
    } asked = {name, FOR_BYTES, sizeof name - 1};
    file = semihosting(SYS_OPEN, &asked);
    if (file == UINT32_MAX) {
        testkit_print("the file of cases cannot be read\n");
        return 2;
    }
    return testkit_run();
}

#endif
