/* Counted groups of checks: a group counts once, passed where every check in it held. */
#ifndef TEST_CHECK_H
#define TEST_CHECK_H

#include <stdbool.h>
#include <stdint.h>

/* The groups that follow are about this: it stands before their names. */
void check_about(const char *about);

/* Closes the group before and begins one of this name. */
__attribute__((format(printf, 1, 2))) void check_group(const char *format, ...);

/* One check that did not hold, in words: what was looked at, what was expected and what was found. */
__attribute__((format(printf, 1, 2))) void fault(const char *format, ...);

/* One check of a number: whether `found` is `wanted`. */
__attribute__((format(printf, 3, 4))) bool expect(uint32_t wanted, uint32_t found, const char *format, ...);

/* Prints the program's last line; gives what it returns to the shell. */
int check_end(const char *program);

#endif
