/* Frames of the Firmware Hub and of the LPC bus: laid down clock by clock, and recognised again on a bus that someone
 * watches. */
#ifndef BUS_FRAMES_H
#define BUS_FRAMES_H

#include "bus/pins.h"

#include <stdbool.h>
#include <stddef.h>
#include <stdint.h>

/* The clocks of a frame, counted from 1. On the Firmware Hub bus:
 *           read            write
 *     1     start 1101b     start 1110b, frame line low
 *     2     device select (straps)
 *     3-9   address, highest nibble first
 *     10    size
 *     11-12 turnaround      data, low nibble first
 *     13-14 wait            turnaround
 *     15    sync            sync
 *     16-17 data            turnaround
 *     18-19 turnaround
 * and on the LPC bus, which is the same from clock 11 on:
 *     1     start 0000b, frame line low
 *     2     cycle type 010Xb read, 011Xb write
 *     3-10  address, highest nibble first */
enum {
    FRAME_START_READ = 0xD,
    FRAME_START_WRITE = 0xE,
    FRAME_START_LPC = 0x0,
    FRAME_TYPE_READ = 0x4,
    FRAME_TYPE_WRITE = 0x6,
    FRAME_TYPE_FREE = 0x1, /* the bit of a cycle type that does not count */
    FRAME_TURNAROUND = 0xF,
    FRAME_CLOCK_SELECT = 2,
    FRAME_CLOCK_ADDRESS = 3,
    FRAME_CLOCK_SIZE = 10,
    FRAME_CLOCK_JUDGED = 10, /* where a frame of either part is dropped at the latest */
    FRAME_CLOCK_WRITTEN = 11,
    FRAME_CLOCK_ACT = 12,
    FRAME_CLOCK_WAIT = 13,
    FRAME_CLOCK_SYNC = 15,
    FRAME_CLOCK_READ = 16,
    FRAME_READ_CLOCKS = 19,
    FRAME_WRITE_CLOCKS = 17,
    FRAME_MOST_CLOCKS = FRAME_READ_CLOCKS
};

/* A frame nibble by nibble, so that any of them can be a wrong one. part: POD_PART_.., whose bus it is laid for;
 * select: what stands on clock 2, the straps or the cycle type; size: of FWH only; byte: what is written, or what a
 * read is to find. */
struct frame {
    bool write;
    uint8_t part;
    uint8_t start;
    uint8_t select;
    uint8_t size;
    uint8_t turn;
    uint8_t byte;
    uint32_t address;
};

/* Frames that a part with these straps takes; on LPC it is the address that has to have them. */
struct frame frame_read(unsigned part, unsigned straps, uint32_t address);
struct frame frame_write(unsigned part, unsigned straps, uint32_t address, uint8_t byte);

/* The last clock of a part's address. */
unsigned frame_address_end(unsigned part);

/* Whether a frame is known to read or to write: on LPC only by one of the two cycle types. */
bool frame_has_direction(const struct frame *frame);

unsigned frame_clocks(const struct frame *frame);

/* The sample of one of its clocks, over an idle sample whose pins it keeps. */
uint16_t frame_sample(const struct frame *frame, unsigned clock, uint16_t idle);

/* The answer byte that a part gives on that clock to a frame that it takes. */
uint8_t frame_answer(const struct frame *frame, unsigned clock);

/* The byte of a read, from the answers on the two clocks that have its data. A nibble that nobody drives is 1111b. */
uint8_t frame_byte(uint32_t low, uint32_t high);

/* Lays all of it over an idle sample; gives its clocks. */
size_t frame_lay(const struct frame *frame, uint16_t idle, uint16_t samples[FRAME_MOST_CLOCKS]);

/* A sample that breaks a frame off, its frame line low and a nibble on the lines. */
uint16_t frame_break(uint16_t idle, unsigned lines);

/* A frame that is being watched. clock: its clocks so far, 0 where there is no frame. */
struct watched {
    struct frame frame;
    unsigned clock;
    bool answered;
};

/* Whether a sample with a low frame line begins a frame of this part. Which way an LPC frame goes is known from clock
 * 2 on; till then it counts as a read. */
bool watch_begin(struct watched *watched, unsigned part, uint16_t sample);

/* Takes one further clock; says whether the frame is then at its end. That is clock 2 for an LPC frame of another cycle
 * type, which no part takes. */
bool watch_clock(struct watched *watched, const struct seen *seen);

#endif
