/* The part's numbers in words. */
#include "bay/words.h"

#include "bay/trouble.h"
#include "bus/addresses.h"
#include "bus/pins.h"
#include "pod.h"

#include <stdarg.h>
#include <stdio.h>
#include <string.h>

enum { STATUS_BITS = 8 };

/* by bit: its name, what 0 and 1 mean, the word that stands for it in a line, its name in a waveform */
static const struct {
    const char *name;
    const char *low;
    const char *high;
    const char *brief;
    const char *wave;
} bits[STATUS_BITS] = {
    { "reserved", "", "", "reserved bit set", "reserved" },
    { "block protection", "no error", "a protected block was to be changed", "protected block", "protected_block" },
    { "program suspend", "none suspended", "a program is suspended", "program suspended", "program_suspended" },
    { "voltage", "no error", "too low for a program or erase", "voltage too low", "voltage_error" },
    { "program", "no error", "error", "program error", "program_error" },
    { "erase", "no error", "error", "erase error", "erase_error" },
    { "erase suspend", "none suspended", "an erase is suspended", "erase suspended", "erase_suspended" },
    { "controller", "busy", "ready", "ready", "ready" },
};

const char *status_bit_name(unsigned bit)
{
    return bit < STATUS_BITS ? bits[bit].wave : "";
}

void words_status(struct text *text, uint32_t status)
{
    text_add(text, "status   %02Xh\n", (unsigned)status);
    for (unsigned bit = STATUS_BITS; bit-- > 1;) {
        bool high = (status >> bit & 1U) != 0;
        text_add(text, "  bit %u  %d  %-16s  %s\n", bit, high, bits[bit].name, high ? bits[bit].high : bits[bit].low);
    }
    text_add(text, "  bit 0  %u  %s\n", (unsigned)(status & 1U), bits[0].name);
}

/* Adds to a brief what still fits. */
static void __attribute__((format(printf, 2, 3))) brief_add(struct brief *brief, const char *form, ...)
{
    size_t length = strlen(brief->text);
    va_list rest;
    va_start(rest, form);
    int laid = vsnprintf(brief->text + length, sizeof brief->text - length, form, rest);
    va_end(rest);
    if (laid < 0) {
        brief->text[length] = '\0';
    }
}

struct brief brief_status(uint32_t status)
{
    struct brief out = { "" };
    brief_add(&out, "%02Xh, %s", (unsigned)status, (status & POD_STATUS_READY) != 0 ? "ready" : "busy");
    for (unsigned bit = STATUS_BITS - 1; bit-- > 0;) {
        if ((status >> bit & 1U) != 0) {
            brief_add(&out, ", %s", bits[bit].brief);
        }
    }
    return out;
}

struct brief brief_stranger(const struct settings *settings, uint32_t address)
{
    struct brief out = { "" };
    const uint32_t windows = POD_LPC_STRAPS_MOST * (uint32_t)POD_IMAGE_BYTES;
    uint32_t window = address & windows;
    if (settings->part != POD_PART_LPC) {
        return out;
    }
    if ((address & ADDRESS_LPC_HIGH) != ADDRESS_LPC_HIGH) {
        brief_add(&out, "bits 23 to 31 are not all 1");
    } else if (window != address_window(settings->straps)) {
        brief_add(&out, "an address of straps %u", (unsigned)(POD_LPC_STRAPS_MOST - window / POD_IMAGE_BYTES));
    }
    return out;
}

/* A register's name and address. Maker and device code are FWH's, and no LPC address is one of theirs. */
static struct brief brief_register(const struct settings *settings, uint32_t address)
{
    struct brief out = { "" };
    unsigned part = settings->part;
    unsigned block = block_of(address % POD_IMAGE_BYTES);
    int digits = part == POD_PART_LPC ? 8 : 7;
    if (address == lock_address(part, settings->straps, block)) {
        brief_add(&out, "lock of block %u (%0*Xh)", block, digits, (unsigned)address);
    } else if (address == inputs_address(part, settings->straps)) {
        brief_add(&out, "inputs (%0*Xh)", digits, (unsigned)address);
    } else if (address == ADDRESS_MAKER) {
        brief_add(&out, "maker (%0*Xh)", digits, (unsigned)address);
    } else if (address == ADDRESS_DEVICE) {
        brief_add(&out, "device code (%0*Xh)", digits, (unsigned)address);
    } else {
        brief_add(&out, "register %0*Xh", digits, (unsigned)address);
    }
    return out;
}

struct brief brief_address(const struct settings *settings, uint32_t address)
{
    struct brief out = { "" };
    uint32_t place = address % POD_IMAGE_BYTES;
    if (brief_stranger(settings, address).text[0] != '\0') {
        brief_add(&out, "address %08Xh", (unsigned)address);
    } else if ((address & ADDRESS_IS_ARRAY) != 0) {
        brief_add(&out, "array %05Xh (block %u)", (unsigned)place, (unsigned)block_of(place));
    } else {
        out = brief_register(settings, address);
    }
    return out;
}

static const char *const voltages[] = { "below lockout", "normal", "twelve volts", "class 3" };

struct brief brief_pins(uint16_t sample, const uint16_t *before)
{
    struct brief out = { "" };
    unsigned moved = before == NULL ? 0xFFFFU : (unsigned)sample ^ *before;
    const char *comma = "";
    for (size_t i = 0; i < PINS; i++) {
        if ((moved & pins[i].mask) != 0) {
            brief_add(&out, "%s%s %s", comma, pins[i].sign, sample_has(sample, pins[i].mask) ? "high" : "low");
            comma = ", ";
        }
    }
    if ((moved & POD_SAMPLE_VOLTAGE) != 0) {
        brief_add(&out, "%svoltage %s", comma, voltages[sample_voltage(sample)]);
        comma = ", ";
    }
    if (moved >> POD_SAMPLE_INPUTS_SHIFT != 0) {
        brief_add(&out, "%sinputs %02Xh", comma, sample_inputs(sample));
    }
    return out;
}

static void map_line(struct text *text, const char *name, uint32_t set, char sign)
{
    text_add(text, "%-7s", name);
    for (unsigned block = 0; block < POD_BLOCKS; block++) {
        text_add(text, "  %c", (set >> block & 1U) != 0 ? sign : '.');
    }
    text_add(text, "\n");
}

void words_blocks(struct text *text, uint32_t marks, uint32_t changed)
{
    text_add(text, "%-7s", "block");
    for (unsigned block = 0; block < POD_BLOCKS; block++) {
        text_add(text, " %2u", block);
    }
    text_add(text, "\n");
    map_line(text, "spoiled", marks, 'S');
    map_line(text, "changed", changed, 'C');
}

struct brief brief_blocks(uint32_t set)
{
    struct brief out = { "" };
    for (unsigned block = 0; block < POD_BLOCKS; block++) {
        if ((set >> block & 1U) != 0) {
            brief_add(&out, "%s%u", out.text[0] == '\0' ? "" : " ", block);
        }
    }
    if (out.text[0] == '\0') {
        brief_add(&out, "none");
    }
    return out;
}

uint32_t blocks_changed(const uint8_t *before, const uint8_t *after)
{
    uint32_t changed = 0;
    for (unsigned block = 0; block < POD_BLOCKS; block++) {
        size_t start = (size_t)block * POD_BLOCK_BYTES;
        if (memcmp(before + start, after + start, POD_BLOCK_BYTES) != 0) {
            changed |= 1U << block;
        }
    }
    return changed;
}

/* A length as it was found, of a file that may go on. */
static struct brief length_found(size_t length, bool more)
{
    struct brief out = { "" };
    if (more) {
        brief_add(&out, "more than %s bytes", counted(length - 1).text);
    } else {
        brief_add(&out, "%s bytes", counted(length).text);
    }
    return out;
}

/* A sheet's bytes as they were found, as far as a sheet goes. */
static struct brief sheet_found(const struct facts *facts)
{
    struct brief out = { "" };
    brief_add(&out, "%s bytes", counted(facts->sheet_length).text);
    for (size_t i = 0; i < facts->sheet_length && i < POD_SHEET_BYTES; i++) {
        brief_add(&out, "%s%02X", i == 0 ? ": " : " ", facts->sheet_bytes[i]);
    }
    if (facts->sheet_length > POD_SHEET_BYTES) {
        brief_add(&out, " ..");
    }
    return out;
}

static struct brief first_class_3(const struct facts *facts)
{
    struct brief out = { "" };
    for (size_t i = 0; i < facts->stream_length / 2; i++) {
        if (sample_voltage(sample_at(facts->samples, i)) == 3) {
            brief_add(&out, "class 3 in sample %s, counted from 0", counted(i).text);
            return out;
        }
    }
    brief_add(&out, "class 3");
    return out;
}

static struct brief time_ranges(void)
{
    struct brief out = { "" };
    brief_add(&out, "program 1 to %s, slice 1 to %s, pause 1 to %s microseconds", counted(POD_PROGRAM_MOST).text,
              counted(POD_SLICE_MOST).text, counted(POD_PAUSE_MOST).text);
    return out;
}

int refused(uint32_t number, const struct facts *facts)
{
    const struct settings *s = &facts->settings;
    int status = (int)number;
    switch (number) {
    case POD_REFUSED_IMAGE:
        return trouble(status, "refusal 2: %s is not an image of this part\n"
                               "  expected  %s bytes\n"
                               "  found     %s\n"
                               "  do        read the board again, or name the whole image",
                       facts->image, counted(POD_IMAGE_BYTES).text,
                       length_found(facts->image_length, facts->image_more).text);
    case POD_REFUSED_STRAPS:
        if (facts->sheet != NULL) {
            return trouble(status, "refusal 3: %s has straps that the part has not\n"
                                   "  expected  straps 0 to %u\n"
                                   "  found     %s\n"
                                   "  do        write the sheet anew with bay sheet write",
                           facts->sheet, (unsigned)straps_most(POD_PART_FWH), sheet_found(facts).text);
        }
        return trouble(status, "refusal 3: there are no such straps\n"
                               "  expected  straps 0 to %u, as the part %s has them\n"
                               "  found     %s\n"
                               "  do        give the strap pins as a number from 0 to %u",
                       (unsigned)straps_most(s->part), part_word(s->part), counted(s->straps).text,
                       (unsigned)straps_most(s->part));
    case POD_REFUSED_TIMES:
        if (facts->sheet != NULL) {
            return trouble(status, "refusal 4: %s has a time that is out of range\n"
                                   "  expected  %s\n"
                                   "  found     %s\n"
                                   "  do        write the sheet anew with bay sheet write",
                           facts->sheet, time_ranges().text, sheet_found(facts).text);
        }
        return trouble(status, "refusal 4: a time is out of range\n"
                               "  expected  %s\n"
                               "  found     program %s, slice %s, pause %s\n"
                               "  do        give three times within their ranges",
                       time_ranges().text, counted(s->program).text, counted(s->slice).text, counted(s->pause).text);
    case POD_REFUSED_STREAM:
        return trouble(status, "refusal 5: %s is not a stream of samples\n"
                               "  expected  two bytes for each sample and at most %s bytes\n"
                               "  found     %s\n"
                               "  do        record the stream again, or cut it into shorter ones",
                       facts->stream, counted(POD_STREAM_BYTES).text,
                       length_found(facts->stream_length, facts->stream_more).text);
    case POD_REFUSED_VOLTAGE:
        return trouble(status, "refusal 7: %s has a voltage that no supply gives\n"
                               "  expected  voltage class 0, 1 or 2 in every sample\n"
                               "  found     %s\n"
                               "  do        mend the recording or the harness track",
                       facts->stream, first_class_3(facts).text);
    case POD_REFUSED_SHEET:
        return trouble(status, "refusal 8: %s is not a bay sheet\n"
                               "  expected  %d bytes: straps, then program, slice and pause, each behind its tag\n"
                               "  found     %s\n"
                               "  do        write the sheet anew with bay sheet write",
                       facts->sheet, POD_SHEET_BYTES, sheet_found(facts).text);
    default:
        return trouble(status, "refusal %d, which this command should never meet\n"
                               "  expected  an answer of 0\n"
                               "  found     %d\n"
                               "  do        report it with the files you used",
                       status, status);
    }
}
