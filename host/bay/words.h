/* Numbers of the part in words, for people to read. Nothing here decides anything. */
#ifndef BAY_WORDS_H
#define BAY_WORDS_H

#include "bay/settings.h"
#include "bay/text.h"

#include <stdbool.h>
#include <stddef.h>
#include <stdint.h>

/* The status register, one line for each bit. */
void words_status(struct text *text, uint32_t status);

/* The status register in a few words, as "80h, ready". */
struct brief {
    char text[192];
};
struct brief brief_status(uint32_t status);

/* The name of status bit 1 to 7 in one word, as a waveform shows it. */
const char *status_bit_name(unsigned bit);

/* The address of a frame on the bus of the part with these settings: a place in the array, a register by its name, or
 * the bare number where it is another part's. */
struct brief brief_address(const struct settings *settings, uint32_t address);

/* Why an address is another part's, which only LPC has. "" where it is this one's. */
struct brief brief_stranger(const struct settings *settings, uint32_t address);

/* The pins of a sample that differ from those of the sample before; with no sample before, all. */
struct brief brief_pins(uint16_t sample, const uint16_t *before);

/* The sixteen blocks as a map: one line of numbers, then one line for each of the two sets of bits. */
void words_blocks(struct text *text, uint32_t marks, uint32_t changed);

/* The blocks in a set of bits by their numbers, as "0 3 15" or "none". */
struct brief brief_blocks(uint32_t bits);

/* The blocks in which two images differ, bit b for block b. */
uint32_t blocks_changed(const uint8_t *before, const uint8_t *after);

/* What a refusal was given about, as far as the command knows it. */
struct facts {
    const char *image;
    size_t image_length;
    bool image_more;
    const char *stream;
    const uint8_t *samples;
    size_t stream_length;
    bool stream_more;
    const char *sheet;
    const uint8_t *sheet_bytes;
    size_t sheet_length;
    struct settings settings;
};

/* Prints what the refusal's number says and gives it back as a status. */
int refused(uint32_t number, const struct facts *facts);

#endif
