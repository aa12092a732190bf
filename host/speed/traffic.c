/* Laying the traffic that is measured. */
#include "speed/traffic.h"

#include "bus/addresses.h"
#include "bus/commands.h"
#include "bus/frames.h"
#include "bus/pins.h"
#include "speed/room.h"

#include <stdbool.h>
#include <stdlib.h>
#include <string.h>

enum {
    STRAPS = 0,
    BLOCK = 3, /* that operations work on where one block is enough */
    STRIDE = 0x61C89 /* between two reads, so that they go all over the array */
};

struct far_end far_end;

/* The stream being laid. */
static struct {
    uint32_t part;
    struct pod_times times;
    size_t count;
    uint8_t bytes[POD_STREAM_BYTES];
} laid;

void traffic_begin(uint32_t part, struct pod_times times)
{
    const struct model_times model_times = { times.program, times.slice, times.pause };
    laid.part = part;
    laid.times = times;
    laid.count = 0;
    if (far_end.image == NULL) {
        far_end.image = room_for(POD_IMAGE_BYTES);
    }
    memcpy(far_end.image, base_image, POD_IMAGE_BYTES);
    if (model_power_up(&far_end.model, part, STRAPS, model_times) != NUMBER_DONE) {
        give_up("expected a part that powers up, found it refused", "");
    }
}

struct stream traffic_end(void)
{
    return stream_of(laid.part, STRAPS, laid.times, laid.bytes, laid.count);
}

void traffic_free(void)
{
    free(far_end.image);
    far_end.image = NULL;
}

static bool is_full(void)
{
    return laid.count == MOST_SAMPLES;
}

static bool is_ready(void)
{
    return (model_status(&far_end.model) & POD_STATUS_READY) != 0;
}

/* One clock; gives the answer. A stream that is full takes none. */
static uint8_t lay(uint16_t sample)
{
    uint8_t answer = 0;
    if (is_full()) {
        return 0;
    }
    sample_put(laid.bytes, laid.count++, sample);
    model_step(&far_end.model, far_end.image, POD_IMAGE_BYTES, sample, &answer);
    return answer;
}

/* Gives the byte that is read. */
static uint8_t lay_frame(const struct frame *frame)
{
    uint16_t samples[FRAME_MOST_CLOCKS];
    uint8_t answers[FRAME_MOST_CLOCKS] = { 0 };
    const size_t clocks = frame_lay(frame, POD_SAMPLE_IDLE, samples);
    for (size_t i = 0; i < clocks; i++) {
        answers[i] = lay(samples[i]);
    }
    return frame_byte(answers[FRAME_CLOCK_READ - 1], answers[FRAME_CLOCK_READ]);
}

static uint8_t lay_read(uint32_t address)
{
    const struct frame frame = frame_read(laid.part, STRAPS, address);
    return lay_frame(&frame);
}

static void lay_write(uint32_t address, uint8_t byte)
{
    const struct frame frame = frame_write(laid.part, STRAPS, address, byte);
    lay_frame(&frame);
}

void traffic_unlock(uint32_t block)
{
    lay_write(lock_address(laid.part, STRAPS, block), 0);
}

static uint32_t in_array(uint32_t place)
{
    return array_address(laid.part, STRAPS, place);
}

void traffic_begin_program(uint32_t place, uint8_t byte)
{
    lay_write(in_array(place), COMMAND_PROGRAM);
    lay_write(in_array(place), byte);
}

void traffic_begin_erase(uint32_t block)
{
    lay_write(in_array(block * POD_BLOCK_BYTES), COMMAND_ERASE);
    lay_write(in_array(block * POD_BLOCK_BYTES), COMMAND_RESUME);
}

void traffic_suspend(void)
{
    lay_write(in_array(0), COMMAND_SUSPEND);
}

static void poll_status(void)
{
    while (!is_full() && (lay_read(in_array(0)) & POD_STATUS_READY) == 0) {
    }
}

static void wait_idle(void)
{
    while (!is_full() && !is_ready()) {
        lay(POD_SAMPLE_IDLE);
    }
}

static void idle_bus(void)
{
    while (!is_full()) {
        lay(POD_SAMPLE_IDLE);
    }
}

/* On LPC nothing stands where FWH has the maker and the device code. */
static void register_reads(void)
{
    const uint32_t codes = codes_address(laid.part, STRAPS);
    while (!is_full()) {
        for (uint32_t block = 0; block < POD_BLOCKS; block++) {
            lay_read(lock_address(laid.part, STRAPS, block));
        }
        lay_read(codes);
        lay_read(codes + 1);
        lay_read(inputs_address(laid.part, STRAPS));
    }
}

static void array_reads(void)
{
    for (uint32_t place = 0; !is_full(); place = (place + STRIDE) % POD_IMAGE_BYTES) {
        lay_read(in_array(place));
    }
}

static void programs(void (*wait)(void))
{
    traffic_unlock(BLOCK);
    for (uint32_t place = BLOCK * POD_BLOCK_BYTES; !is_full(); place++) {
        traffic_begin_program(place, place & 0xFF);
        wait();
    }
}

static void programs_polled(void)
{
    programs(poll_status);
}

static void programs_waited(void)
{
    programs(wait_idle);
}

static void erase_idle(void)
{
    traffic_unlock(BLOCK);
    traffic_begin_erase(BLOCK);
    idle_bus();
}

static void erase_polled(void)
{
    traffic_unlock(BLOCK);
    traffic_begin_erase(BLOCK);
    poll_status();
}

static void erases_short(void)
{
    for (uint32_t block = 0; !is_full(); block = (block + 1) % POD_BLOCKS) {
        traffic_unlock(block);
        traffic_begin_erase(block);
        wait_idle();
    }
}

/* lpc: its name on LPC, if it has frames. */
static const struct {
    const char *name, *lpc;
    struct pod_times times;
    void (*lay)(void);
} kinds[] = {
    { "idle bus", NULL, { 10, 3906, 30 }, idle_bus },
    { "register reads", "register reads, LPC", { 10, 3906, 30 }, register_reads },
    { "array reads", "array reads, LPC", { 10, 3906, 30 }, array_reads },
    { "programs, 10 µs, status polled", "programs, 10 µs, status polled, LPC", { 10, 3906, 30 }, programs_polled },
    { "programs, 10 µs, idle wait", "programs, 10 µs, idle wait, LPC", { 10, 3906, 30 }, programs_waited },
    { "erase begun, idle bus", "erase begun, idle bus, LPC", { 10, 3906, 30 }, erase_idle },
    { "erase begun, status polled", "erase begun, status polled, LPC", { 10, 3906, 30 }, erase_polled },
    { "erases, slices of 1 µs, idle wait", "erases, slices of 1 µs, idle wait, LPC", { 10, 1, 30 }, erases_short },
};
enum { KINDS = sizeof kinds / sizeof kinds[0] };
_Static_assert(TRAFFIC_ROWS == 2 * KINDS - 1, "a row of each kind on each bus, but for the idle one");

static struct row traffic_row(size_t kind, uint32_t part)
{
    const bool lpc = part == POD_PART_LPC;
    struct row row = { .name = lpc ? kinds[kind].lpc : kinds[kind].name, .again = lpc };
    traffic_begin(part, kinds[kind].times);
    kinds[kind].lay();
    row_add(&row, traffic_end());
    return row;
}

void traffic_rows(struct row rows[TRAFFIC_ROWS])
{
    for (size_t kind = 0; kind < KINDS; kind++) {
        *rows++ = traffic_row(kind, POD_PART_FWH);
        if (kinds[kind].lpc != NULL) {
            *rows++ = traffic_row(kind, POD_PART_LPC);
        }
    }
}
