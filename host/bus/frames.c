/* Laying down and recognising frames. */
#include "bus/frames.h"

#include "pod.h"

static struct frame frame_of(unsigned part, unsigned straps, uint32_t address, bool write)
{
    struct frame frame = { .write = write, .part = (uint8_t)part, .turn = FRAME_TURNAROUND, .address = address };
    if (part == POD_PART_LPC) {
        frame.start = FRAME_START_LPC;
        frame.select = write ? FRAME_TYPE_WRITE : FRAME_TYPE_READ;
    } else {
        frame.start = write ? FRAME_START_WRITE : FRAME_START_READ;
        frame.select = (uint8_t)straps;
    }
    return frame;
}

struct frame frame_read(unsigned part, unsigned straps, uint32_t address)
{
    return frame_of(part, straps, address, false);
}

struct frame frame_write(unsigned part, unsigned straps, uint32_t address, uint8_t byte)
{
    struct frame frame = frame_of(part, straps, address, true);
    frame.byte = byte;
    return frame;
}

unsigned frame_address_end(unsigned part)
{
    return part == POD_PART_LPC ? FRAME_CLOCK_JUDGED : FRAME_CLOCK_SIZE - 1;
}

unsigned frame_clocks(const struct frame *frame)
{
    return frame->write ? FRAME_WRITE_CLOCKS : FRAME_READ_CLOCKS;
}

/* What the host leaves on the lines. */
static unsigned lines(const struct frame *frame, unsigned clock)
{
    if (clock == 1) {
        return frame->start;
    }
    if (clock == FRAME_CLOCK_SELECT) {
        return frame->select;
    }
    if (clock <= frame_address_end(frame->part)) {
        return frame->address >> 4 * (frame_address_end(frame->part) - clock);
    }
    if (clock == FRAME_CLOCK_SIZE) {
        return frame->size;
    }
    if (frame->write && clock <= FRAME_CLOCK_ACT) {
        return frame->byte >> 4 * (clock - FRAME_CLOCK_WRITTEN);
    }
    return frame->turn;
}

uint16_t frame_sample(const struct frame *frame, unsigned clock, uint16_t idle)
{
    uint16_t sample = sample_with_lines(idle, lines(frame, clock));
    return sample_set(sample, POD_SAMPLE_FRAME, clock == 1 ? 0 : POD_SAMPLE_FRAME);
}

uint8_t frame_answer(const struct frame *frame, unsigned clock)
{
    enum {
        FLOATS = 0,
        WAITS = POD_ANSWER_DRIVEN | 0x5,
        SYNCS = POD_ANSWER_DRIVEN,
        TURNS = POD_ANSWER_DRIVEN | FRAME_TURNAROUND
    };
    const uint8_t low = POD_ANSWER_DRIVEN | (frame->byte & POD_ANSWER_LINES);
    const uint8_t high = (uint8_t)(POD_ANSWER_DRIVEN | frame->byte >> 4);
    const uint8_t read[] = { WAITS, WAITS, SYNCS, low, high, TURNS, FLOATS };
    const uint8_t written[] = { FLOATS, FLOATS, SYNCS, TURNS, FLOATS };
    if (clock < FRAME_CLOCK_WAIT || clock > frame_clocks(frame)) {
        return FLOATS;
    }
    return (frame->write ? written : read)[clock - FRAME_CLOCK_WAIT];
}

static unsigned nibble_of(uint32_t answer)
{
    return (answer & POD_ANSWER_DRIVEN) != 0 ? answer & POD_ANSWER_LINES : POD_ANSWER_LINES;
}

uint8_t frame_byte(uint32_t low, uint32_t high)
{
    return (uint8_t)(nibble_of(low) | nibble_of(high) << 4);
}

size_t frame_lay(const struct frame *frame, uint16_t idle, uint16_t samples[FRAME_MOST_CLOCKS])
{
    unsigned clocks = frame_clocks(frame);
    for (unsigned clock = 1; clock <= clocks; clock++) {
        samples[clock - 1] = frame_sample(frame, clock, idle);
    }
    return clocks;
}

uint16_t frame_break(uint16_t idle, unsigned lines)
{
    return sample_set(sample_with_lines(idle, lines), POD_SAMPLE_FRAME, 0);
}

bool watch_begin(struct watched *watched, unsigned part, uint16_t sample)
{
    unsigned start = sample & POD_SAMPLE_LINES;
    bool write = part != POD_PART_LPC && start == FRAME_START_WRITE;
    *watched = (struct watched){ .clock = 0 };
    if (part == POD_PART_LPC ? start != FRAME_START_LPC : start != FRAME_START_READ && !write) {
        return false;
    }
    watched->frame.part = (uint8_t)part;
    watched->frame.start = (uint8_t)start;
    watched->frame.write = write;
    watched->clock = 1;
    return true;
}

/* The cycle type of an LPC frame without the bit that does not count. */
static unsigned type_of(const struct frame *frame)
{
    return frame->select & ~(unsigned)FRAME_TYPE_FREE;
}

bool frame_has_direction(const struct frame *frame)
{
    return frame->part != POD_PART_LPC || type_of(frame) == FRAME_TYPE_READ || type_of(frame) == FRAME_TYPE_WRITE;
}

/* Clock 2; says whether the frame goes on. */
static bool watch_select(struct frame *frame, uint8_t host)
{
    frame->select = host;
    if (frame->part == POD_PART_LPC) {
        frame->write = type_of(frame) == FRAME_TYPE_WRITE;
    }
    return frame_has_direction(frame);
}

bool watch_clock(struct watched *watched, const struct seen *seen)
{
    struct frame *frame = &watched->frame;
    unsigned clock = ++watched->clock;
    uint8_t host = seen->sample & POD_SAMPLE_LINES;
    uint8_t device = seen->answer & POD_ANSWER_LINES;
    unsigned data = frame->write ? FRAME_CLOCK_WRITTEN : FRAME_CLOCK_READ;
    uint8_t nibble = frame->write ? host : device;
    if (clock == FRAME_CLOCK_SELECT) {
        return !watch_select(frame, host);
    }
    if (clock <= frame_address_end(frame->part)) {
        frame->address = frame->address << 4 | host;
    } else if (clock == FRAME_CLOCK_SIZE) {
        frame->size = host;
    }
    if (clock == data) {
        frame->byte = nibble;
    } else if (clock == data + 1) {
        frame->byte = (uint8_t)(frame->byte | (unsigned)nibble << 4);
    }
    if (clock == FRAME_CLOCK_SYNC) {
        watched->answered = (seen->answer & POD_ANSWER_DRIVEN) != 0;
    }
    return clock == frame_clocks(frame);
}
