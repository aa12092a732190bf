/* Sends random traces of both parts through the proved model and through the hand-written one and stops at the first
 * departure: every answer byte, number, frame, status, mark and image byte is compared.
 *
 *   diff [--clocks N] [--seed S] [--forever] [--record FILE]
 *
 * Traces take the seeds S, S + 1, S + 2 and so on until N clocks are done. A trace depends on its seed alone, so a
 * departure is seen again with its seed and `--clocks 1`. What the traces reached is counted and printed; in a run of a
 * million clocks or more a count of zero fails. FILE gets the traces that went through run, as record.h has it. */
#include "diff/counts.h"
#include "diff/images.h"
#include "diff/play.h"
#include "diff/record.h"
#include "diff/trace.h"

#include <inttypes.h>
#include <stdbool.h>
#include <stddef.h>
#include <stdio.h>
#include <stdlib.h>
#include <string.h>

enum {
    COUNTED_CLOCKS = 1000000, /* in so many clocks all is to be reached */
    TOLD_CLOCKS = 10000000    /* one that goes on forever says so every so often */
};

struct wish {
    uint64_t clocks;
    uint64_t seed;
    bool forever;
    const char *record;
};

static bool number_argument(const char *word, uint64_t *value)
{
    char *end = NULL;
    *value = strtoull(word, &end, 10);
    return end != word && *end == '\0';
}

static bool read_wish(int argc, char **argv, struct wish *wish)
{
    for (int i = 1; i < argc; i++) {
        const char *word = argv[i], *value = i + 1 < argc ? argv[i + 1] : NULL;
        if (strcmp(word, "--forever") == 0) {
            wish->forever = true;
            continue;
        }
        if (value == NULL) {
            return false;
        }
        i++;
        if (strcmp(word, "--record") == 0) {
            wish->record = value;
        } else if (!(strcmp(word, "--clocks") == 0 && number_argument(value, &wish->clocks)) &&
                   !(strcmp(word, "--seed") == 0 && number_argument(value, &wish->seed))) {
            return false;
        }
    }
    return true;
}

/* Plays what is wished for; gives the seed behind the last one. */
static uint64_t play_traces(const struct wish *wish)
{
    uint64_t next = wish->seed, told = 0;
    while (trace.all_done < wish->clocks || wish->forever) {
        play_trace(next++);
        if (wish->forever && trace.all_done / TOLD_CLOCKS > told) {
            told = trace.all_done / TOLD_CLOCKS;
            printf("diff: %" PRIu64 " clocks, seeds up to %" PRIu64 ", 0 departures\n", trace.all_done, next - 1);
            fflush(stdout);
        }
    }
    return next;
}

int main(int argc, char **argv)
{
    struct wish wish = { .clocks = 10000000, .seed = 1 };
    if (!read_wish(argc, argv, &wish)) {
        printf("usage: diff [--clocks N] [--seed S] [--forever] [--record FILE]\n");
        return 2;
    }
    if (wish.record != NULL && !record_open(wish.record)) {
        printf("diff: expected a file that can be written, found none at %s\n", wish.record);
        return 1;
    }
    images_make();
    printf("diff: seeds from %" PRIu64 "\n", wish.seed);
    fflush(stdout);
    const uint64_t next = play_traces(&wish);
    const bool counted = wish.clocks >= COUNTED_CLOCKS;
    if (counted) {
        play_whole_erase();
    }
    if (!record_close()) {
        printf("diff: expected room for all traces, found an end of it in %s\n", wish.record);
        return 1;
    }
    const uint32_t zeros = print_tallies();
    printf("diff: seeds %" PRIu64 " to %" PRIu64 ", %" PRIu64 " traces\n", wish.seed, next - 1, next - wish.seed);
    if (counted && zeros != 0) {
        printf("diff: %" PRIu32 " counts are zero: the traces no longer reach what they are for\n", zeros);
        return 1;
    }
    printf("diff: %" PRIu64 " clocks, 0 departures\n", trace.all_done);
    return 0;
}
