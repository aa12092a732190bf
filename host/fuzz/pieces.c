/* Frames, requests, lines and sheets from drawn numbers. */
#include "fuzz/pieces.h"

#include "bus/addresses.h"
#include "bus/commands.h"
#include "bus/frames.h"
#include "pod.h"

#include <stdarg.h>
#include <stdio.h>
#include <string.h>

/* A command byte of the part, or any byte. */
static uint8_t draw_command(struct draws *draws)
{
    static const uint8_t commands[] = { COMMAND_ARRAY,       COMMAND_STATUS,  COMMAND_SIGNATURE, COMMAND_CLEAR,
                                        COMMAND_ERASE,       COMMAND_RESUME,  COMMAND_PROGRAM,   COMMAND_PROGRAM_TOO,
                                        COMMAND_SUSPEND,     COMMAND_SIGNATURE_TOO, 0x60, 0x00, 0x01 };
    return draw_one_in(draws, 6) ? (uint8_t)draw(draws) : commands[draw_below(draws, sizeof commands)];
}

/* The array, the lock registers, the other registers, or anywhere. */
static uint32_t draw_address(struct draws *draws, unsigned part, unsigned straps)
{
    uint32_t block = (uint32_t)draw_below(draws, POD_BLOCKS);
    switch (draw_below(draws, 4)) {
    case 0:
        return lock_address(part, straps, block);
    case 1:
        return codes_address(part, straps) + (uint32_t)draw_below(draws, ADDRESS_INPUTS + 0x10 - ADDRESS_MAKER);
    case 2:
        return (uint32_t)draw(draws) & address_most(part);
    default:
        return array_address(part, straps, block * POD_BLOCK_BYTES + (uint32_t)draw_below(draws, 4));
    }
}

/* A frame of either part, mostly one for straps 0; on LPC seldom of a cycle type that is none. */
size_t piece_frame(struct draws *draws, uint8_t *room)
{
    uint16_t samples[FRAME_MOST_CLOCKS];
    unsigned part = (unsigned)draw_below(draws, POD_PART_LPC + 1);
    unsigned straps = draw_one_in(draws, 16) ? (unsigned)draw_below(draws, 16) : 0;
    uint32_t address = draw_address(draws, part, straps);
    uint16_t idle = POD_SAMPLE_IDLE;
    struct frame frame = draw_one_in(draws, 3) ? frame_read(part, straps, address)
                                               : frame_write(part, straps, address, draw_command(draws));
    if (part == POD_PART_LPC && draw_one_in(draws, 16)) {
        frame.select = (uint8_t)draw_below(draws, 16);
    }
    if (draw_one_in(draws, 8)) {
        idle = sample_with_voltage((uint16_t)draw(draws) | POD_SAMPLE_RP | POD_SAMPLE_INIT | POD_SAMPLE_FRAME,
                                   (unsigned)draw_below(draws, 3));
    }
    size_t clocks = frame_lay(&frame, idle, samples);
    for (size_t i = 0; i < clocks; i++) {
        sample_put(room, i, samples[i]);
    }
    return clocks * 2;
}

static size_t put24(uint8_t *room, uint32_t number)
{
    for (size_t i = 0; i < 3; i++) {
        room[i] = (uint8_t)(number >> 8 * i);
    }
    return 3;
}

/* One request of a serprog client; one that writes many bytes may promise more of them than follow. */
size_t piece_request(struct draws *draws, uint8_t *room)
{
    static const uint8_t codes[] = { 0x00, 0x01, 0x02, 0x03, 0x04, 0x05, 0x07, 0x08, 0x09, 0x0A, 0x0B, 0x0C, 0x0C, 0x0C,
                                     0x0D, 0x0D, 0x0E, 0x0F, 0x0F, 0x10, 0x11, 0x12 };
    uint8_t code = codes[draw_below(draws, sizeof codes)];
    size_t length = 1;
    room[0] = code;
    if (code == 0x0D) {
        size_t data = draw_below(draws, 64);
        uint32_t told = draw_one_in(draws, 4) ? draw_border(draws) : (uint32_t)data;
        length += put24(room + length, told);
        length += put24(room + length, draw_address(draws, POD_PART_FWH, 0));
        for (size_t i = 0; i < data; i++) {
            room[length++] = draw_command(draws);
        }
    } else if (code == 0x09 || code == 0x0A || code == 0x0C) {
        length += put24(room + length, draw_address(draws, POD_PART_FWH, 0));
    }
    if (code == 0x0A) {
        length += put24(room + length, draw_one_in(draws, 8) ? draw_border(draws) : (uint32_t)draw_below(draws, 64));
    } else if (code == 0x0C || code == 0x12) {
        room[length++] = draw_command(draws);
    } else if (code == 0x0E) {
        length += put24(room + length, draw_border(draws));
        room[length++] = draw_one_in(draws, 4) ? (uint8_t)draw(draws) : 0;
    }
    return length;
}

static size_t __attribute__((format(printf, 2, 3))) say(uint8_t *room, const char *form, ...)
{
    va_list rest;
    va_start(rest, form);
    int length = vsnprintf((char *)room, PIECE_MOST, form, rest);
    va_end(rest);
    return length < 0 ? 0 : strlen((const char *)room);
}

size_t piece_pull(struct draws *draws, uint8_t *room)
{
    static const char *const pulls[] = {
        "wp low",    "wp high", "tbl low",        "tbl high", "voltage 0", "voltage 2",
        "voltage 3", "wp",      "wp low tbl low", "# wp low", "wp low#",   "voltage 4",
    };
    static const char *const ends[] = { "\n", "\n", "\r\n", "", " \n", "#\n" };
    const char *pull = pulls[draw_below(draws, sizeof pulls / sizeof pulls[0])];
    const char *end = ends[draw_below(draws, sizeof ends / sizeof ends[0])];
    return say(room, "at %u %s%s", (unsigned)draw_border(draws), pull, end);
}

size_t piece_words(struct draws *draws, uint8_t *room)
{
    static const char *const names[] = { "straps", "program", "slice", "pause" };
    static const char *const ends[] = { "\n", " microseconds\n", "\tmicroseconds\r\n", "", " microseconds more\n" };
    if (draw_one_in(draws, 8)) {
        /* a sheet says no part */
        return say(room, "part %s\n", draw_one_in(draws, 2) ? "lpc" : draw_one_in(draws, 2) ? "fwh" : "1");
    }
    const char *name = names[draw_below(draws, sizeof names / sizeof names[0])];
    const char *end = ends[draw_below(draws, sizeof ends / sizeof ends[0])];
    return say(room, "%s %u%s", name, (unsigned)draw_border(draws), end);
}

size_t piece_sheet(struct draws *draws, uint8_t *room)
{
    uint32_t straps = (uint32_t)draw_below(draws, POD_STRAPS_MOST + 1);
    uint32_t program = 1 + (uint32_t)draw_below(draws, POD_PROGRAM_MOST);
    uint32_t slice = 1 + (uint32_t)draw_below(draws, POD_SLICE_MOST);
    uint32_t pause = 1 + (uint32_t)draw_below(draws, POD_PAUSE_MOST);
    return pod_sheet_write(room, PIECE_MOST, straps, program, slice, pause) == 0 ? POD_SHEET_BYTES : 0;
}

/* One file of a rack's folder, with what kinds.c tells of its front. */
size_t piece_entry(struct draws *draws, uint8_t *room)
{
    uint8_t inside[PIECE_MOST];
    size_t slot = draw_below(draws, 8);
    size_t length = 0;
    if (slot == 0) {
        length = piece_pull(draws, inside);
    } else if (slot % 3 == 0) {
        length = piece_sheet(draws, inside);
    } else if (slot % 3 == 1 && slot < 7) {
        inside[0] = (uint8_t)(draw_one_in(draws, 4) ? draw(draws) : 0);
        inside[1] = (uint8_t)draw(draws);
        length = 2;
    } else {
        length = piece_frame(draws, inside);
    }
    length = length < PIECE_MOST - 3 ? length : PIECE_MOST - 3;
    room[0] = (uint8_t)(slot | (draw_one_in(draws, 8) ? draw_below(draws, 4) << 6 : 0));
    room[1] = (uint8_t)length;
    room[2] = (uint8_t)(length >> 8);
    memcpy(room + 3, inside, length);
    return 3 + length;
}

void mend_stream(struct input *input, struct draws *draws)
{
    if (draw_one_in(draws, 8)) {
        return;
    }
    input->length = input->length / 2 * 2;
    for (size_t i = 0; i < input->length / 2; i++) {
        uint16_t sample = sample_at(input->at, i);
        if (sample_voltage(sample) > POD_VOLTAGE_TWELVE) {
            sample_put(input->at, i, sample_with_voltage(sample, POD_VOLTAGE_NORMAL));
        }
    }
}

/* What every sheet has in the same places, wherever straps and times differ, is put back there. */
void mend_sheet(struct input *input, struct draws *draws)
{
    uint8_t low[POD_SHEET_BYTES];
    uint8_t high[POD_SHEET_BYTES];
    if (draw_one_in(draws, 3) || pod_sheet_write(low, sizeof low, 0, 1, 0x0101, 1) != 0 ||
        pod_sheet_write(high, sizeof high, 15, 200, 0x9802, 30) != 0) {
        return;
    }
    for (size_t i = 0; i < sizeof low; i++) {
        if (i >= input->length || low[i] == high[i]) {
            input->at[i] = low[i];
        }
    }
    input->length = sizeof low;
}

static size_t at_most(size_t length, size_t left)
{
    return length < left ? length : left;
}

size_t group_byte(const uint8_t *at, size_t left)
{
    (void)at;
    return at_most(1, left);
}

size_t group_sample(const uint8_t *at, size_t left)
{
    (void)at;
    return at_most(2, left);
}

size_t group_line(const uint8_t *at, size_t left)
{
    const uint8_t *end = memchr(at, '\n', left);
    return end == NULL ? left : (size_t)(end - at) + 1;
}

size_t group_request(const uint8_t *at, size_t left)
{
    static const uint8_t parameters[] = { [0x09] = 3, [0x0A] = 6, [0x0C] = 4, [0x0D] = 6, [0x0E] = 4, [0x12] = 1 };
    size_t length = 1 + (at[0] < sizeof parameters ? (size_t)parameters[at[0]] : 0);
    if (at[0] == 0x0D && left >= 4) {
        length += (size_t)at[1] | (size_t)at[2] << 8 | (size_t)at[3] << 16;
    }
    return at_most(length, left);
}

size_t group_entry(const uint8_t *at, size_t left)
{
    return left < 3 ? left : at_most(3 + ((size_t)at[1] | (size_t)at[2] << 8), left);
}

/* Requests are cut where they take long, and read no more bytes than a line holds a few times, or seldom the most. */
void mend_requests(struct input *input, struct draws *draws)
{
    enum { REQUESTS_MOST = 48 * 1024, ONE_READ_MOST = 65536, USUAL_READ = 10000, SELDOM = 32 };
    size_t read = 0;
    size_t most = draw_one_in(draws, SELDOM) ? ONE_READ_MOST : USUAL_READ;
    input->length = at_most(input->length, REQUESTS_MOST);
    for (size_t at = 0; at < input->length;) {
        uint8_t *request = input->at + at;
        size_t length = group_request(request, input->length - at);
        if (request[0] == 0x0A && length == 7) {
            size_t bytes = (size_t)request[4] | (size_t)request[5] << 8 | (size_t)request[6] << 16;
            if (bytes <= ONE_READ_MOST && bytes > most - read) {
                (void)put24(request + 4, 1);
            } else if (bytes <= ONE_READ_MOST) {
                read += bytes;
            }
        }
        at += length;
    }
}
