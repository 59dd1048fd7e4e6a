/*
 * testkit.h: runs stored cases through the library, and says how many answers differ. README.md says how to run it on a
 * board of one's own: give it the two functions below, and call testkit_run.
 */
#ifndef TESTKIT_H
#define TESTKIT_H

#include <stddef.h>

#ifdef __cplusplus
extern "C" {
#endif

/* Yours: gives the next bytes of the text of cases, at most room of them, and says how many; 0 at its end. */
size_t testkit_read(char *bytes, size_t room);

/* Yours: shows words, which end with a zero byte. A line feed is among them where a line ends. */
void testkit_print(const char *words);

/*
 * Runs all cases, names the first that differ, and prints `N cases, 0 differ` last.
 *
 * Returns 0 where none differs, 1 where some do, 2 where the text of cases is not as it should be, none of it could be
 * run, or the library is of another major version than the header.
 */
int testkit_run(void);

#ifdef __cplusplus
}
#endif

#endif
