/* What a line wishes of one call of the library: of a refusal, a view or a sheet. */
#ifndef CASE_WISH_H
#define CASE_WISH_H

#include "bus/words.h"
#include "pod.h"

#include <stdbool.h>
#include <stddef.h>
#include <stdint.h>

/* Bytes kept behind each buffer, to see writes past its end and to lend lengths that are too long. */
enum { SPARE = 64 };

/* The most samples of a scenario. */
enum { SAMPLES_MOST = POD_STREAM_BYTES / 2 };

/* What a power-up is told; also what a sheet holds, but for the part. */
struct power {
    uint32_t part;
    uint32_t straps;
    uint32_t program;
    uint32_t slice;
    uint32_t pause;
};

enum wish_call {
    CALL_STEP,
    CALL_CLOCK,
    CALL_SETTLE,
    CALL_SET_TIMES,
    CALL_POWER_UP,
    CALL_RUN,
    CALL_SHEET_READ,
    CALL_SHEET_WRITE,
    CALL_VIEW
};

enum { WISH_BYTES_MOST = WORDS_MOST };

/* Lengths, levels and samples that the line does not say are the right ones. */
struct wish {
    enum wish_call call;
    bool unsound;           /* a device that is not */
    unsigned low;           /* pins of the sample that are low */
    bool class_3;           /* the sample has that voltage, of a run's samples this one */
    uint32_t class_3_at;
    uint32_t image_length;
    uint32_t page_length;
    bool stream_said;
    uint32_t stream_length;
    bool room_said;
    uint32_t room;          /* for answers or a sheet */
    uint32_t limit;
    bool soiled;            /* the page is not all zeros, here */
    uint32_t soiled_at;
    struct power power;
    uint8_t bytes[WISH_BYTES_MOST]; /* of a sheet */
    size_t byte_count;
    uint32_t block;         /* of a view, where it is shown and from which place of the image */
    uint32_t from;
    uint32_t place;
};

/* The power-up that a file has where it says nothing. */
struct power power_plain(void);

/* The library's own power-up. */
struct pod_powered power_up(const struct power *power);

/* Takes three times. */
void power_take_times(struct power *power, struct words *words);

/* Takes the rest of a line: the call and what is wished of it. `power` is the file's own. */
void wish_take_refusal(struct wish *wish, const struct power *power, struct words *words);
void wish_take_view(struct wish *wish, const struct power *power, struct words *words);
void wish_take_sheet(struct wish *wish, const struct power *power, struct words *words);

#endif
