/* Laying samples down as lines of text say. */
#include "bus/script.h"

#include "bus/addresses.h"

#include <stdlib.h>

void script_begin(struct script *script, size_t most)
{
    *script = (struct script){ .most = most, .idle = POD_SAMPLE_IDLE };
}

void script_free(struct script *script)
{
    free(script->laid);
    script_begin(script, 0);
}

/* Room for so many further samples; where there is none, the line is wrong. */
static bool make_room(struct script *script, struct words *words, size_t more)
{
    if (words_are_wrong(words)) {
        return false;
    }
    if (more > script->most - script->count) {
        words_wrong(words, "expected at most %zu samples in all, found %zu more", script->most, more);
        return false;
    }
    if (more <= script->room - script->count) {
        return true;
    }
    size_t room = 2 * script->room + more;
    struct laid *laid = realloc(script->laid, room * sizeof *laid);
    if (laid == NULL) {
        words_wrong(words, "expected memory for %zu samples, found none left", room);
        return false;
    }
    script->laid = laid;
    script->room = room;
    return true;
}

static void lay(struct script *script, struct words *words, uint16_t sample, int answer)
{
    if (make_room(script, words, 1)) {
        script->laid[script->count++] = (struct laid){ sample, answer, words->line };
    }
}

static void repeat(struct script *script, struct words *words, uint32_t times, struct laid one)
{
    one.line = words->line;
    if (make_room(script, words, times)) {
        for (uint32_t i = 0; i < times; i++) {
            script->laid[script->count++] = one;
        }
    }
}

void script_idle(struct script *script, struct words *words, uint32_t times)
{
    struct laid one = { .sample = script->idle, .answer = script->open ? SCRIPT_UNCHECKED : 0 };
    repeat(script, words, times, one);
}

/* ---- Frames. */

static int answer(const struct script_frame *last, unsigned clock)
{
    bool data = clock == FRAME_CLOCK_READ || clock == FRAME_CLOCK_READ + 1;
    if (last->silent) {
        return 0;
    }
    return !last->frame.write && data && !last->valued ? SCRIPT_UNCHECKED : frame_answer(&last->frame, clock);
}

/* Lays the last frame as far as this clock or its end. */
static void lay_up_to(struct script *script, struct words *words, unsigned until)
{
    struct script_frame *last = &script->last;
    while (last->clock < until && last->clock < last->clocks && !words_are_wrong(words)) {
        unsigned clock = ++last->clock;
        if (last->broken && clock == last->clocks) {
            lay(script, words, frame_break(script->idle, last->nibble), 0);
        } else {
            lay(script, words, frame_sample(&last->frame, clock, script->idle), answer(last, clock));
        }
    }
    script->open = last->clock < last->clocks;
}

static unsigned take_clock(const struct frame *frame, struct words *words)
{
    unsigned clock = words_decimal(words, frame_clocks(frame));
    if (clock == 0) {
        words_wrong(words, "expected a clock, which count from 1, found 0");
    }
    return clock;
}

/* One of the nibbles that may be another than the right one. */
static bool take_nibble(struct script_frame *last, struct words *words)
{
    struct frame *frame = &last->frame;
    const bool lpc = frame->part == POD_PART_LPC;
    const struct {
        const char *name;
        uint8_t *nibble;
        bool stands; /* on the bus of the part */
    } options[] = { { "strap", &frame->select, !lpc }, { "size", &frame->size, !lpc }, { "type", &frame->select, lpc },
                    { "start", &frame->start, true },  { "turn", &frame->turn, true } };
    for (size_t i = 0; i < sizeof options / sizeof options[0]; i++) {
        if (options[i].stands && words_take_if(words, options[i].name)) {
            *options[i].nibble = (uint8_t)words_hex(words, 0xF);
            return true;
        }
    }
    return false;
}

/* Takes the options of a frame; gives the clock before which it is cut, or 0. */
static unsigned take_options(struct script_frame *last, struct words *words)
{
    unsigned cut = 0;
    while (words_more(words)) {
        if (!last->frame.write && words_take_if(words, "=")) {
            last->frame.byte = (uint8_t)words_hex(words, 0xFF);
            last->valued = true;
        } else if (words_take_if(words, "break")) {
            last->broken = true;
            last->clocks = take_clock(&last->frame, words);
        } else if (words_take_if(words, "cut")) {
            cut = take_clock(&last->frame, words);
        } else if (words_take_if(words, "nibble")) {
            last->nibble = words_hex(words, 0xF);
        } else if (words_take_if(words, "silent")) {
            last->silent = true;
        } else if (!take_nibble(last, words)) {
            words_wrong(words, "expected an option of a frame, found %s", words_found(words));
        }
    }
    return cut;
}

/* What frames select for straps that have no nibble on the FWH bus. */
enum { UNSELECTED = POD_STRAPS_MOST + 1 };

static void take_frame(struct script *script, struct words *words, bool write)
{
    const unsigned straps = script->straps < UNSELECTED ? script->straps : UNSELECTED;
    uint32_t address = words_hex(words, address_most(script->part));
    struct script_frame last = { .nibble = 0xF };
    last.frame = write ? frame_write(script->part, straps, address, (uint8_t)words_hex(words, 0xFF))
                       : frame_read(script->part, straps, address);
    last.clocks = frame_clocks(&last.frame);
    const unsigned cut = take_options(&last, words);
    if (last.frame.select == UNSELECTED) {
        words_wrong(words, "expected `strap` where no nibble selects the straps, found none");
    }
    if (!words_are_wrong(words)) {
        script->last = last;
        lay_up_to(script, words, cut != 0 ? cut - 1 : last.clocks);
    }
}

static void take_write(struct script *script, struct words *words)
{
    take_frame(script, words, true);
}

static void take_read(struct script *script, struct words *words)
{
    take_frame(script, words, false);
}

static void take_on(struct script *script, struct words *words)
{
    const struct script_frame *last = &script->last;
    if (last->clock == last->clocks) {
        words_wrong(words, "expected a frame that was cut, found none to go on with");
    }
    lay_up_to(script, words, words_more(words) ? last->clock + words_decimal(words, FRAME_MOST_CLOCKS) : last->clocks);
}

/* ---- Samples that are no frame. */

static void take_idle(struct script *script, struct words *words)
{
    script_idle(script, words, words_decimal(words, SCRIPT_REPEATS_MOST));
}

static void take_reset(struct script *script, struct words *words)
{
    const unsigned both = POD_SAMPLE_RP | POD_SAMPLE_INIT;
    const struct pin *pin = pin_named(words_look(words));
    unsigned low = pin == NULL ? 0 : pin->mask & both;
    if (words_take_if(words, "both")) {
        low = both;
    } else if (low != 0) {
        (void)words_take_if(words, pin->name);
    } else {
        words_wrong(words, "expected rp, init or both, found %s", words_found(words));
    }
    struct laid one = { .sample = sample_set(script->idle, low, 0), .answer = 0 };
    repeat(script, words, words_decimal(words, SCRIPT_REPEATS_MOST), one);
    script->open = false;
}

static void take_raw(struct script *script, struct words *words)
{
    do {
        uint16_t sample = (uint16_t)words_hex(words, 0xFFFF);
        lay(script, words, sample, SCRIPT_UNCHECKED);
    } while (words_more(words));
    script->open = true;
}

/* ---- What holds from the next sample on. */

static void take_part(struct script *script, struct words *words)
{
    if (script->count > 0) {
        words_wrong(words, "expected a part before the first sample, found it after it");
    }
    script->part = words_take_if(words, "lpc") ? POD_PART_LPC : POD_PART_FWH;
    if (script->part == POD_PART_FWH && !words_take_if(words, "fwh")) {
        words_wrong(words, "expected fwh or lpc, found %s", words_found(words));
    }
}

static void take_straps(struct script *script, struct words *words)
{
    if (script->count > 0) {
        words_wrong(words, "expected straps before the first sample, found them after it");
    }
    script->straps = words_decimal(words, UINT32_MAX);
}

static void take_pin(struct script *script, struct words *words)
{
    const struct pin *pin = pin_named(words_look(words));
    if (pin == NULL || (pin->mask & (POD_SAMPLE_TBL | POD_SAMPLE_WP)) == 0) {
        words_wrong(words, "expected tbl or wp, found %s", words_found(words));
        return;
    }
    words_must(words, pin->name);
    bool high = words_take_if(words, "high");
    if (!high && !words_take_if(words, "low")) {
        words_wrong(words, "expected low or high, found %s", words_found(words));
    }
    script->idle = sample_set(script->idle, pin->mask, high ? pin->mask : 0);
}

static void take_voltage(struct script *script, struct words *words)
{
    script->idle = sample_with_voltage(script->idle, words_decimal(words, 3));
}

static void take_inputs(struct script *script, struct words *words)
{
    script->idle = sample_with_inputs(script->idle, words_hex(words, 0x1F));
}

static void take_lines(struct script *script, struct words *words)
{
    script->idle = sample_with_lines(script->idle, words_hex(words, 0xF));
}

bool script_take(struct script *script, struct words *words)
{
    static const struct {
        const char *name;
        void (*take)(struct script *script, struct words *words);
    } lines[] = {
        { "write", take_write }, { "read", take_read },     { "on", take_on },   { "idle", take_idle },
        { "reset", take_reset }, { "raw", take_raw },       { "pin", take_pin }, { "voltage", take_voltage },
        { "lines", take_lines }, { "inputs", take_inputs }, { "straps", take_straps }, { "part", take_part },
    };
    for (size_t i = 0; i < sizeof lines / sizeof lines[0]; i++) {
        if (words_take_if(words, lines[i].name)) {
            lines[i].take(script, words);
            words_end(words);
            return true;
        }
    }
    return false;
}
