/* The file that gets the traces that went through run, one behind the other: a byte with the part, a bay sheet, the
 * number of samples in four bytes with the lowest first, and the samples. */
#ifndef DIFF_RECORD_H
#define DIFF_RECORD_H

#include <stdbool.h>

/* Without a file nothing is recorded. Says whether it can be written. */
bool record_open(const char *name);

/* The trace in progress, with all its clocks done. */
void record_trace(void);

/* Says whether all of it is written. */
bool record_close(void);

#endif
