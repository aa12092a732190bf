/* The trace in progress, and what is said at a departure. */
#include "diff/trace.h"

#include "diff/counts.h"

#include <inttypes.h>
#include <stdarg.h>
#include <stddef.h>
#include <stdio.h>
#include <stdlib.h>

struct trace trace;

_Noreturn void departure(const char *format, ...)
{
    va_list list;
    printf("diff: departure: seed %" PRIu64 ", clock %" PRIu32 ": ", trace.seed, trace.done);
    va_start(list, format);
    vprintf(format, list);
    va_end(list);
    printf("\ndiff: part %" PRIu32 ", straps %" PRIu32 ", times %" PRIu32 " %" PRIu32 " %" PRIu32
           "; the samples up to there:",
           trace.part, trace.straps, trace.times.program, trace.times.slice, trace.times.pause);
    for (uint32_t i = LAST_SAMPLES; i > 0; i--) {
        if (i <= trace.done) {
            printf(" %04X", (unsigned)trace.last[(trace.done - i) % LAST_SAMPLES]);
        }
    }
    if (trace.tried != NULL) {
        printf("\ndiff: the bytes of the device:");
        for (size_t i = 0; i < sizeof *trace.tried; i++) {
            printf(" %02X", (unsigned)((const uint8_t *)trace.tried)[i]);
        }
    }
    if (trace.after_all) {
        printf("\ndiff: after the traces, in the erase at its ordinary time\n");
    } else {
        printf("\ndiff: seen again with --seed %" PRIu64 " --clocks 1\n", trace.seed);
    }
    exit(1);
}

void expect(const char *what, uint32_t expected, uint32_t found)
{
    if (expected != found) {
        departure("%s: expected %" PRIX32 "h, found %" PRIX32 "h", what, expected, found);
    }
}

void expect_number(const char *what, uint32_t expected, uint32_t found)
{
    expect(what, expected, found);
    tally_number(expected);
}
