/* What a bay is powered up with: which part it holds, its straps and three times in microseconds. */
#ifndef BAY_SETTINGS_H
#define BAY_SETTINGS_H

#include <stdbool.h>
#include <stdint.h>

/* part: POD_PART_FWH or POD_PART_LPC. */
struct settings {
    uint32_t part;
    uint32_t straps;
    uint32_t program;
    uint32_t slice;
    uint32_t pause;
};

/* The options that settings come from, each null where it is not given. */
struct settings_options {
    const char *part;
    const char *straps;
    const char *times;
    const char *sheet;
};

/* The FWH part with straps 0 and times 10, 3906 and 30 where nothing else is said. Gives 0 or a status after a
 * message. */
int settings_take(const struct settings_options *options, struct settings *out);

/* Reads a bay sheet, which says no part and is one of FWH's. */
int settings_from_sheet(const char *path, struct settings *out);

/* The word that --part takes for a part, as "fwh". */
const char *part_word(uint32_t part);

/* Takes such a word; with null the part stays. Gives 0 or a status after a message. */
int part_take(const char *word, uint32_t *out);

/* A decimal number; one too large for 32 bits becomes the largest, which the library turns away like every other that
 * is too large. */
bool number_take(const char *words, uint32_t *out);

/* A decimal number within bounds, or a message that names the option. */
struct bounds {
    uint32_t least;
    uint32_t most;
};
int number_within(const char *option, const char *words, struct bounds bounds, uint32_t *out);

#endif
