/* Waiting by settle and by clocks. */
#include "speed/waits.h"

#include "model.h"
#include "pod.h"
#include "speed/sides.h"
#include "speed/text.h"
#include "speed/timing.h"
#include "speed/traffic.h"
#include "speed/ways.h"
#include "test/same_device.h"

#include <stdbool.h>
#include <stdio.h>
#include <string.h>

enum {
    SCALED_FROM = 5000000, /* clocks of an erase that is too long to be stepped whole */
    BLOCK = 5,
    PLACE = BLOCK * POD_BLOCK_BYTES + 0x1234,
    MICROSECOND = POD_CLOCKS_PER_MICROSECOND
};

enum begun { BEGUN_PROGRAM, BEGUN_ERASE, BEGUN_SUSPEND };

/* clocks: all that it takes from its acceptance; scaled: too long to be stepped whole. */
static const struct wait {
    const char *name;
    enum begun begun;
    uint32_t clocks;
    struct pod_times times;
    bool scaled;
} waits[] = {
    { "program, 10 µs", BEGUN_PROGRAM, MICROSECOND * 10, { 10, 3906, 30 }, false },
    { "program, 200 µs", BEGUN_PROGRAM, MICROSECOND * POD_PROGRAM_MOST, { POD_PROGRAM_MOST, 3906, 30 }, false },
    { "suspend of an erase, pause 30 µs", BEGUN_SUSPEND, MICROSECOND * POD_PAUSE_MOST, { 10, 3906, POD_PAUSE_MOST },
      false },
    { "erase, slices of 1 µs", BEGUN_ERASE, POD_SLICES * MICROSECOND * 1, { 10, 1, 30 }, false },
    { "erase, slices of 100 µs", BEGUN_ERASE, POD_SLICES * MICROSECOND * 100, { 10, 100, 30 }, false },
    { "erase, slices of 39,062 µs", BEGUN_ERASE, POD_SLICES * MICROSECOND * POD_SLICE_MOST, { 10, POD_SLICE_MOST, 30 },
      true },
};
enum { WAITS = sizeof waits / sizeof waits[0] };

/* The device and the image after the frames that begin what is waited for. */
static struct pod_device begin_wait(const struct wait *w, uint32_t part)
{
    traffic_begin(part, w->times);
    traffic_unlock(BLOCK);
    if (w->begun == BEGUN_PROGRAM) {
        traffic_begin_program(PLACE, 0x0F);
    } else {
        traffic_begin_erase(BLOCK);
    }
    if (w->begun == BEGUN_SUSPEND) {
        traffic_suspend();
    }
    struct stream s = traffic_end();
    struct pod_device device = pod_power_up(part, s.straps, s.times.program, s.times.slice, s.times.pause).device;
    memcpy(lent_image, base_image, POD_IMAGE_BYTES);
    for (size_t n = 0; n < s.count; n++) {
        pod_clock(&device, lent_image, POD_IMAGE_BYTES, s.samples[n]);
    }
    stream_free(&s);
    return device;
}

static uint32_t settle_count(const struct wait *w)
{
    return w->clocks - AFTER_ACTING;
}

static uint32_t clock_idle(struct pod_device *device, uint32_t clocks)
{
    uint32_t number = POD_DONE;
    for (uint32_t n = 0; n < clocks; n++) {
        number |= pod_clock(device, lent_image, POD_IMAGE_BYTES, POD_SAMPLE_IDLE).number;
    }
    return number;
}

static bool same_image(void)
{
    return memcmp(lent_image, far_end.image, POD_IMAGE_BYTES) == 0;
}

/* What settle gave, and left in the image, beside the model's settle and beside as many clocks. */
static void check_settled(const struct wait *w, struct pod_device device, const struct pod_settled *settled)
{
    uint32_t count;
    const uint32_t number =
        model_settle(&far_end.model, far_end.image, POD_IMAGE_BYTES, POD_SAMPLE_IDLE, UINT32_MAX, &count);
    sides_check(number == NUMBER_DONE && settled->number == POD_DONE && count == settled->count &&
                    count == settle_count(w) && model_status(&far_end.model) == pod_status(settled->device),
                "number, count or status of pod_settle", w->name);
    sides_check(same_image(), "the image of pod_settle", w->name);
    if (w->scaled) {
        return;
    }
    memcpy(lent_image, base_image, POD_IMAGE_BYTES);
    sides_check(clock_idle(&device, count) == POD_DONE && same_device(&device, &settled->device),
                "the device of pod_settle and pod_clock", w->name);
    sides_check(same_image(), "the image of pod_clock", w->name);
}

static void check_wait(const struct wait *w, uint32_t part)
{
    const struct pod_device device = begin_wait(w, part);
    const struct pod_settled settled = pod_settle(device, lent_image, POD_IMAGE_BYTES, POD_SAMPLE_IDLE, UINT32_MAX);
    check_settled(w, device, &settled);
}

void waits_check(void)
{
    for (size_t i = 0; i < WAITS; i++) {
        if (!waits[i].scaled) {
            check_wait(&waits[i], POD_PART_FWH);
            check_wait(&waits[i], POD_PART_LPC);
        }
    }
}

/* So many settles of one device. Each writes what stands in the image already. */
static double time_settles(struct pod_device device, uint64_t calls, struct pod_settled *last)
{
    const uint64_t from = time_now();
    for (uint64_t i = 0; i < calls; i++) {
        *last = pod_settle(device, lent_image, POD_IMAGE_BYTES, POD_SAMPLE_IDLE, UINT32_MAX);
    }
    return (double)(time_now() - from);
}

static void settle_round(struct measure *m, struct pod_device device)
{
    struct pod_settled last;
    uint64_t calls = 1;
    double spent = time_settles(device, calls, &last);
    while (spent < ROUND_NS) {
        calls *= 2;
        spent = time_settles(device, calls, &last);
    }
    measure_note(m, spent, calls);
}

/* A round of the clocks that a settle stands for. */
static void clock_round(struct measure *m, struct pod_device device, uint32_t clocks)
{
    const uint64_t from = time_now();
    uint64_t spent = 0, times = 0;
    while (spent < ROUND_NS) {
        struct pod_device stepped = device;
        clock_idle(&stepped, clocks);
        spent = time_now() - from;
        times++;
    }
    measure_note(m, (double)spent, times);
}

/* A wait as it is timed: by settle from the device, by clocks from the one to step. */
struct timed {
    struct pod_device device, stepped;
    uint32_t clocks;
    struct measure settle, clock;
};

/* The first settle is the one that is compared, since that of the longest erase may be the only one. */
static struct timed begin_timing(const struct wait *w)
{
    const struct pod_device device = begin_wait(w, POD_PART_FWH);
    struct timed t = { device, device, w->scaled ? SCALED_FROM : settle_count(w), { 0, 0 }, { 0, 0 } };
    struct pod_settled settled;
    const double first = time_settles(device, 1, &settled);
    check_settled(w, device, &settled);
    if (first >= ROUND_NS) {
        measure_note(&t.settle, first, 1);
    }
    if (w->scaled) {
        t.stepped.controller.outer.slices /= 2; /* the middle of the erase */
    }
    return t;
}

static void time_waits(struct timed *timed)
{
    for (uint32_t round = 0; round < ROUNDS; round++) {
        for (struct timed *t = timed; t < timed + WAITS; t++) {
            if (t->settle.spent < SIDE_NS) {
                settle_round(&t->settle, t->device);
            }
            if (t->clock.spent < SIDE_NS) {
                clock_round(&t->clock, t->stepped, t->clocks);
            }
        }
    }
}

static void print_wait(const struct wait *w, const struct timed *t)
{
    const double whole = t->clock.best / t->clocks * settle_count(w);
    print_left(w->name, NAME_WIDTH);
    printf("| %11s | %12.9f | %12.9f ", with_commas(settle_count(w)), t->settle.best / 1e9, whole / 1e9);
    printf("| %22.2f | %16s |\n", whole / t->settle.best, w->scaled ? with_commas(t->clocks) : "all");
}

void print_waits(void)
{
    static const int columns[] = { NAME_WIDTH, 11, 12, 12, 22, 16 };
    struct timed timed[WAITS];
    for (size_t i = 0; i < WAITS; i++) {
        timed[i] = begin_timing(&waits[i]);
    }
    if (sides.failed != 0) {
        return;
    }
    time_waits(timed);
    print_left("what is waited for", NAME_WIDTH);
    printf("| %11s | %12s | %12s | %22s | %16s |\n", "clocks", "pod_settle s", "pod_clock s", "pod_clock / pod_settle",
           "pod_clocks timed");
    print_rule(columns, sizeof columns / sizeof columns[0]);
    for (size_t i = 0; i < WAITS; i++) {
        print_wait(&waits[i], &timed[i]);
    }
}
