/* bay demo: the night that cost two boards. Twelve bays erase, the harness pulls write protect low for all of them, and
 * the table shows what each block holds afterwards. */
#include "bay/bench.h"
#include "bay/commands.h"
#include "bay/files.h"
#include "bay/options.h"
#include "bay/text.h"
#include "bay/words.h"
#include "bus/addresses.h"
#include "bus/commands.h"
#include "bus/pins.h"

#include <stdbool.h>
#include <stdlib.h>
#include <string.h>

enum {
    BAYS = 12,
    PAUSED_BAY = 6,
    PULL = 700000,  /* the clock on which the harness pulls write protect low */
    SPREAD = 60000, /* clocks between one bay's erase and the next one's */
    NAP = 150000    /* clocks for which the paused bay erases before its pause */
};

static const struct settings bay_settings = { POD_PART_FWH, 0, 10, 100, 30 };

/* What one bay went through. blank_at_pull: bytes that the erase had filled when the pin fell; kept: bytes of the old
 * firmware at the end; elsewhere: other blocks that have changed. */
struct night {
    unsigned bay;
    unsigned block;
    uint64_t begun;
    uint64_t over;
    size_t blank_at_pull;
    size_t kept;
    uint32_t elsewhere;
    uint32_t status;
};

/* What all bays share: the firmware they start from, and the page of zeros that the block view wants. */
struct stock {
    uint8_t *firmware;
    uint8_t *page;
};

/* No byte of the old firmware is FFh, so that a blank byte is one that an erase has filled. */
static void fill(uint8_t *firmware)
{
    for (size_t i = 0; i < POD_IMAGE_BYTES; i++) {
        firmware[i] = (uint8_t)((i * 7 + (i >> 8) * 13) % 251);
    }
}

/* The blank bytes of a block, as the library shows the block. */
static size_t blank_bytes(const struct bench *bench, const uint8_t *page, unsigned block)
{
    struct pod_part part = pod_view(bench->device, bench->image, bench->image_length, page, POD_BLOCK_BYTES, block);
    const uint8_t *shown = (part.from == POD_FROM_IMAGE ? bench->image : page) + part.start;
    size_t blank = 0;
    for (size_t i = 0; i < part.length; i++) {
        blank += shown[i] == 0xFF ? 1U : 0U;
    }
    return blank;
}

static void rest_until(struct bench *bench, uint64_t clock)
{
    if (clock > bench->clock) {
        bench_rest(bench, clock - bench->clock);
    }
}

/* Where a frame finds the block's first byte. */
static uint32_t front_of(unsigned block)
{
    return array_address(bay_settings.part, bay_settings.straps, block * POD_BLOCK_BYTES);
}

/* The updater's way to erase a block, begun on the clock that the night says. */
static void erase(struct bench *bench, struct night *night)
{
    rest_until(bench, night->begun);
    bench_write(bench, lock_address(bay_settings.part, bay_settings.straps, night->block), 0);
    bench_write(bench, front_of(night->block), COMMAND_ERASE);
    bench_write(bench, front_of(night->block), COMMAND_RESUME);
    night->begun = bench->clock;
}

/* One bay's night, from power-up to rest. */
static void live(struct bench *bench, const struct stock *stock, struct night *night)
{
    bool early = night->begun < PULL;
    bool pauses = night->bay == PAUSED_BAY;
    if (early) {
        erase(bench, night);
    }
    if (pauses) {
        rest_until(bench, night->begun + NAP);
        bench_write(bench, front_of(night->block), COMMAND_SUSPEND);
    }
    rest_until(bench, PULL);
    night->blank_at_pull = blank_bytes(bench, stock->page, night->block);
    bench->idle = sample_set(bench->idle, POD_SAMPLE_WP, 0);
    if (pauses) {
        bench_write(bench, front_of(night->block), COMMAND_RESUME);
    }
    if (!early) {
        erase(bench, night);
    }
    bench_settle(bench);
    night->over = bench->clock;
    night->status = pod_status(bench->device);
    night->kept = POD_BLOCK_BYTES - blank_bytes(bench, stock->page, night->block);
    night->elsewhere = blocks_changed(stock->firmware, bench->image) & ~(1U << night->block);
}

/* The old model looked at the pin when an erase was over and not when it began; with the pin low by then it kept the
 * block. */
static bool old_model_keeps(const struct night *night)
{
    return night->over >= PULL;
}

static const char *holds(size_t kept)
{
    if (kept == 0) {
        return "blank";
    }
    return kept == POD_BLOCK_BYTES ? "whole" : "in part";
}

static void tell_story(struct text *text)
{
    text_add(text, "Twelve bays hold the old firmware, and each erases one block, in slices of %u\n"
                   "microseconds. On clock %s the harness pulls write protect low for all\n"
                   "twelve. Bay %d is paused at that moment and goes on afterwards; bay %d begins\n"
                   "too late.\n\n",
             (unsigned)bay_settings.slice, counted(PULL).text, PAUSED_BAY, BAYS);
    text_add(text, "              erase      blank       erase  %-27s  block  old\n", "");
    text_add(text, "bay  block    begun    at pull        over  %-27s  now    model\n", "status");
}

static void tell_row(struct text *text, const struct night *night)
{
    text_add(text, "%3u  %5u  %7s  %9s", night->bay, night->block, counted(night->begun).text,
             counted(night->blank_at_pull).text);
    text_add(text, "  %10s  %-27s  %-5s  %s\n", counted(night->over).text, brief_status(night->status).text,
             holds(night->kept), old_model_keeps(night) ? "whole" : "blank");
}

static void tell_end(struct text *text, const struct night *nights)
{
    unsigned before = 0;
    unsigned finished = 0;
    unsigned away = 0;
    unsigned wrong = 0;
    uint32_t elsewhere = 0;
    for (unsigned i = 0; i < BAYS; i++) {
        bool early = nights[i].begun < PULL;
        bool blank = nights[i].kept == 0;
        before += early ? 1U : 0U;
        finished += early && blank ? 1U : 0U;
        away += !early && nights[i].kept == POD_BLOCK_BYTES ? 1U : 0U;
        wrong += blank && old_model_keeps(&nights[i]) ? 1U : 0U;
        elsewhere |= nights[i].elsewhere;
    }
    text_add(text, "\nErases begun before write protect fell: %u. Finished: %u.\n"
                   "Erases begun after it: %u. Turned away, the block whole: %u.\n"
                   "Other blocks that changed: %s.\n"
                   "The old model asked for write protect when an erase was over. It would have\n"
                   "left %u blocks whole that are blank on the board.\n",
             before, finished, BAYS - before, away, brief_blocks(elsewhere).text, wrong);
}

static int show(struct text *text, const struct stock *stock, uint8_t *image)
{
    struct night nights[BAYS];
    memset(nights, 0, sizeof nights);
    tell_story(text);
    for (unsigned i = 0; i < BAYS; i++) {
        struct bench bench = { .image = image, .image_length = POD_IMAGE_BYTES, .idle = POD_SAMPLE_IDLE };
        nights[i].bay = i + 1;
        nights[i].block = i;
        nights[i].begun = (i + 1ULL) * SPREAD;
        memcpy(image, stock->firmware, POD_IMAGE_BYTES);
        bench_power_up(&bench, &bay_settings);
        live(&bench, stock, &nights[i]);
        if (bench.refusal != POD_DONE) {
            return refused(bench.refusal,
                           &(struct facts){ .image = "demo", .stream = "demo", .settings = bay_settings });
        }
        tell_row(text, &nights[i]);
    }
    tell_end(text, nights);
    return 0;
}

int command_demo(int count, char **words)
{
    const struct line line = { NULL, 0, NULL, 0 };
    int status = options_take(&line, count, words);
    if (status != 0) {
        return status;
    }
    struct text text = { NULL, 0, 0 };
    struct stock stock = { must_have(POD_IMAGE_BYTES), must_have(POD_BLOCK_BYTES) };
    uint8_t *image = must_have(POD_IMAGE_BYTES);
    fill(stock.firmware);
    memset(stock.page, 0, POD_BLOCK_BYTES);
    status = show(&text, &stock, image);
    if (status == 0) {
        status = deliver(&(struct output){ .at = text.bytes, .length = text.length, .report = true }, 1);
    }
    free(stock.firmware);
    free(stock.page);
    free(image);
    text_free(&text);
    return status;
}
