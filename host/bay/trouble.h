/* What goes wrong, said to a person: what was expected, what was found, what to do. */
#ifndef BAY_TROUBLE_H
#define BAY_TROUBLE_H

#include <stddef.h>

/* Exit statuses that are no refusal. 1 to 10 are the library's numbered answers. */
enum {
    TROUBLE_USAGE = 64,       /* the command line is not one that bay knows */
    TROUBLE_DATA = 65,        /* a text file does not say what it should */
    TROUBLE_NO_INPUT = 66,    /* a file cannot be read */
    TROUBLE_UNAVAILABLE = 69, /* a port cannot be had */
    TROUBLE_SOFTWARE = 70,    /* bay or the library is at fault */
    TROUBLE_SYSTEM = 71,      /* memory, processes or sockets ran out */
    TROUBLE_CREATE = 73,      /* a file cannot be made there */
    TROUBLE_OUTPUT = 74       /* a file or the standard output cannot be written */
};

/* The name that opens every message, as "bay run". */
void trouble_speaker(const char *name);

/* From now on messages are kept in the lent room and not printed. */
void trouble_into(char *words, size_t room);

/* Writes words to a standard stream. A reader that is gone, or does not read for a tenth of a second, goes without the
 * rest and stops nothing. */
void tell(int place, const char *words, size_t length);

/* Tells one message on the standard error and gives the status back. */
int trouble(int status, const char *form, ...) __attribute__((format(printf, 2, 3)));

#endif
