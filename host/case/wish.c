/* Reading what a line wishes of a call. */
#include "case/wish.h"

#include <ctype.h>
#include <string.h>

struct power power_plain(void)
{
    return (struct power){ .part = POD_PART_FWH, .straps = 0, .program = 10, .slice = 3906, .pause = 30 };
}

struct pod_powered power_up(const struct power *power)
{
    return pod_power_up(power->part, power->straps, power->program, power->slice, power->pause);
}

void power_take_times(struct power *power, struct words *words)
{
    power->program = words_decimal(words, UINT32_MAX);
    power->slice = words_decimal(words, UINT32_MAX);
    power->pause = words_decimal(words, UINT32_MAX);
}

static void power_take(struct power *power, struct words *words)
{
    power->straps = words_decimal(words, UINT32_MAX);
    power_take_times(power, words);
}

static void begin(struct wish *wish, enum wish_call call, const struct power *power)
{
    *wish = (struct wish){ .call = call,
                           .image_length = POD_IMAGE_BYTES,
                           .page_length = POD_BLOCK_BYTES,
                           .limit = 1,
                           .power = *power };
}

/* A length that is another than the right one. */
static bool take_length(struct wish *wish, struct words *words)
{
    if (words_take_if(words, "image")) {
        wish->image_length = words_decimal(words, POD_IMAGE_BYTES + SPARE);
    } else if (words_take_if(words, "page")) {
        wish->page_length = words_decimal(words, POD_BLOCK_BYTES + SPARE);
    } else if (words_take_if(words, "stream")) {
        wish->stream_length = words_decimal(words, POD_STREAM_BYTES + SPARE);
        wish->stream_said = true;
    } else if (words_take_if(words, "room")) {
        wish->room = words_decimal(words, wish->call == CALL_RUN ? SAMPLES_MOST : SPARE);
        wish->room_said = true;
    } else {
        return false;
    }
    return true;
}

/* A level of the sample, or its voltage. */
static bool take_level(struct wish *wish, struct words *words)
{
    unsigned low = 0;
    if (words_take_if(words, "class3")) {
        wish->class_3 = true;
        if (isdigit((unsigned char)words_look(words)[0])) {
            wish->class_3_at = words_decimal(words, SAMPLES_MOST - 1);
        }
        return true;
    }
    if (words_take_if(words, "frame")) {
        low = POD_SAMPLE_FRAME;
    } else if (words_take_if(words, "rp")) {
        low = POD_SAMPLE_RP;
    } else if (words_take_if(words, "init")) {
        low = POD_SAMPLE_INIT;
    } else {
        return false;
    }
    words_must(words, "low");
    wish->low |= low;
    return true;
}

/* All that may be said, up to "=" or the end of the line. */
static void take_options(struct wish *wish, struct words *words)
{
    while (words_more(words) && strcmp(words_look(words), "=") != 0) {
        if (take_length(wish, words) || take_level(wish, words)) {
            continue;
        }
        if (words_take_if(words, "unsound")) {
            wish->unsound = true;
        } else if (words_take_if(words, "limit")) {
            wish->limit = words_decimal(words, UINT32_MAX);
        } else if (words_take_if(words, "soiled")) {
            wish->soiled = true;
            wish->soiled_at = words_hex(words, POD_BLOCK_BYTES - 1);
        } else if (words_take_if(words, "part")) {
            wish->power.part = words_decimal(words, UINT32_MAX);
        } else if (words_take_if(words, "straps")) {
            wish->power.straps = words_decimal(words, UINT32_MAX);
        } else if (words_take_if(words, "times")) {
            power_take_times(&wish->power, words);
        } else {
            words_wrong(words, "expected something to wish of a call, found %s", words_found(words));
        }
    }
}

void wish_take_refusal(struct wish *wish, const struct power *power, struct words *words)
{
    static const struct {
        const char *name;
        enum wish_call call;
    } calls[] = { { "step", CALL_STEP },           { "clock", CALL_CLOCK },    { "settle", CALL_SETTLE },
                  { "set", CALL_SET_TIMES },       { "power", CALL_POWER_UP }, { "run", CALL_RUN },
                  { "sheet", CALL_SHEET_WRITE } };
    begin(wish, CALL_STEP, power);
    size_t i = 0;
    while (i < sizeof calls / sizeof calls[0] && !words_take_if(words, calls[i].name)) {
        i++;
    }
    if (i == sizeof calls / sizeof calls[0]) {
        words_wrong(words, "expected a call that can be refused, found %s", words_found(words));
        return;
    }
    wish->call = calls[i].call;
    if (wish->call == CALL_SHEET_WRITE && words_take_if(words, "read")) {
        wish->call = CALL_SHEET_READ;
        wish->byte_count = words_bytes(words, wish->bytes, WISH_BYTES_MOST);
    } else if (wish->call == CALL_SHEET_WRITE) {
        words_must(words, "write");
    }
    take_options(wish, words);
}

void wish_take_view(struct wish *wish, const struct power *power, struct words *words)
{
    begin(wish, CALL_VIEW, power);
    wish->block = words_decimal(words, UINT32_MAX);
    take_options(wish, words);
    words_must(words, "=");
    if (words_take_if(words, "front")) {
        wish->from = POD_FROM_FRONT;
    } else if (words_take_if(words, "page")) {
        wish->from = POD_FROM_PAGE;
    } else {
        words_must(words, "image");
        wish->from = POD_FROM_IMAGE;
        wish->place = words_hex(words, POD_IMAGE_BYTES);
    }
}

void wish_take_sheet(struct wish *wish, const struct power *power, struct words *words)
{
    if (words_take_if(words, "read")) {
        begin(wish, CALL_SHEET_READ, power);
        wish->byte_count = words_bytes(words, wish->bytes, WISH_BYTES_MOST);
        words_must(words, "=");
        power_take(&wish->power, words);
    } else {
        begin(wish, CALL_SHEET_WRITE, power);
        words_must(words, "write");
        power_take(&wish->power, words);
        words_must(words, "=");
        wish->byte_count = words_bytes(words, wish->bytes, WISH_BYTES_MOST);
    }
}
