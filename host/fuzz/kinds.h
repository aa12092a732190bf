/* The kinds of input that bay reads, and how each of them is handed to it. */
#ifndef FUZZ_KINDS_H
#define FUZZ_KINDS_H

#include "fuzz/spoil.h"

/* What a child is to do. choice: drawn from the input alone, so that an input is always handed over in the same way.
 * line: the server's end of a line to a client, where the kind has one. */
struct task {
    const struct input *input;
    uint64_t choice;
    int line;
};

/* line: the input comes over a line, at whose other end the driver is. mend: makes good what would hide all else; may
 * be null. carry_out: done in a child in an empty folder, beside which the common files stand; gives bay's status. What
 * bay leaves whole or not at all is called out.* there. */
struct kind {
    const char *name;
    bool line;
    struct style style;
    void (*mend)(struct input *input, struct draws *draws);
    int (*carry_out)(const struct task *task);
};
enum { KINDS = 7 };
extern const struct kind kinds[KINDS];

/* Makes the files that all turns share in the folder that the program is in. False where it cannot. */
bool common_files(void);

#endif
