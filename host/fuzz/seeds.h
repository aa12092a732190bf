/* The seeds of one kind: inputs that are as they should be, or that were a fault once. */
#ifndef FUZZ_SEEDS_H
#define FUZZ_SEEDS_H

#include "fuzz/spoil.h"

enum { SEEDS_MOST = 256 };

struct seeds {
    size_t count;
    struct input *inputs[SEEDS_MOST];
};

/* Reads one file; what goes past the longest input is left. False after a message. */
bool input_read(const char *path, struct input *out);

/* Reads all files of FOLDER/KIND in the order of their names. False after a message. */
bool seeds_read(const char *folder, const char *kind, struct seeds *out);
void seeds_free(struct seeds *seeds);

#endif
