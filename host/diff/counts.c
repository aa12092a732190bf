/* The counts of what the traces reached, and printing them. */
#include "diff/counts.h"

#include "bus/commands.h"
#include "bus/frames.h"
#include "model.h"
#include "pod.h"

#include <inttypes.h>
#include <stdio.h>

enum {
    NUMBERS = POD_STILL_BUSY + 1,
    PARTS = POD_PART_LPC + 1,
    FRAMES = FRAME_BEGUN + 1,
    NIBBLES = 16,
    FIRST_FLIP = 20,
    FLIPS = 32 - FIRST_FLIP,
    CONDITIONS = PROGRAM_INSIDE + 1,
    COLUMNS = 9,
    OTHER_COLUMN = COLUMNS - 1
};

#define TALLY(name, text) text,
static const char *const names[TALLIES] = { TALLIES_TABLE };
#undef TALLY

static const char *const condition_names[CONDITIONS] = { "ready",           "running",
                                                         "pausing",         "program suspended",
                                                         "erase suspended", "program inside" };
static const char *const column_names[COLUMNS] = { "FF", "70", "90,98", "50", "40,10", "20", "B0", "D0", "other" };

static uint64_t tallies[TALLIES];
static uint64_t numbers[NUMBERS]; /* of every call */
static uint64_t clocks[PARTS];
static uint64_t starts[PARTS][NIBBLES];
static uint64_t taken[PARTS][POD_STRAPS_MOST + 1];            /* frames, by the straps */
static uint64_t types[NIBBLES];                               /* of LPC frames */
static uint64_t flips[FLIPS];                                 /* of LPC addresses */
static uint64_t breaks[PARTS][FRAMES][FRAME_MOST_CLOCKS + 1]; /* by the clock, from 1 */
static uint64_t commands[CONDITIONS][COLUMNS];                /* the cells of the command table */
static uint64_t setups_ended[CONDITIONS][2];                  /* of a program, of an erase */

void tally(enum tally what)
{
    tallies[what]++;
}

void tally_by(enum tally what, uint64_t times)
{
    tallies[what] += times;
}

void tally_number(uint32_t number)
{
    numbers[number]++;
}

void tally_clock(uint8_t part)
{
    clocks[part]++;
}

void tally_start(uint8_t part, uint32_t nibble)
{
    starts[part][nibble]++;
}

void tally_break(uint8_t part, uint8_t frame, uint32_t clock)
{
    breaks[part][frame][clock]++;
}

void tally_straps(uint8_t part, uint8_t straps)
{
    taken[part][straps]++;
}

void tally_type(uint32_t nibble)
{
    types[nibble]++;
}

void tally_flip(uint32_t bit)
{
    flips[bit - FIRST_FLIP]++;
}

static uint32_t column_of(uint8_t byte)
{
    switch (byte) {
    case COMMAND_ARRAY:
        return 0;
    case COMMAND_STATUS:
        return 1;
    case COMMAND_SIGNATURE:
    case COMMAND_SIGNATURE_TOO:
        return 2;
    case COMMAND_CLEAR:
        return 3;
    case COMMAND_PROGRAM:
    case COMMAND_PROGRAM_TOO:
        return 4;
    case COMMAND_ERASE:
        return 5;
    case COMMAND_SUSPEND:
        return 6;
    case COMMAND_RESUME:
        return 7;
    default:
        return OTHER_COLUMN;
    }
}

void tally_command(uint8_t condition, uint8_t byte)
{
    commands[condition][column_of(byte)]++;
}

void tally_setup_ended(uint8_t condition, uint8_t setup)
{
    setups_ended[condition][setup - SETUP_PROGRAM]++;
}

/* A line of counts; gives how many of them are zero. */
static uint32_t print_row(const char *name, const uint64_t *counts, uint32_t count)
{
    uint32_t zeros = 0;
    printf("\n  %s:", name);
    for (uint32_t i = 0; i < count; i++) {
        printf(" %" PRIu64, counts[i]);
        zeros += counts[i] == 0;
    }
    return zeros;
}

static uint32_t print_fwh(void)
{
    const uint64_t *reads = breaks[POD_PART_FWH][FRAME_READ], *writes = breaks[POD_PART_FWH][FRAME_WRITE];
    return print_row("FWH clocks", &clocks[POD_PART_FWH], 1) +
           print_row("FWH frames taken, by straps", taken[POD_PART_FWH], POD_STRAPS_MOST + 1) +
           print_row("FWH start nibbles, from 0", starts[POD_PART_FWH], NIBBLES) +
           print_row("FWH reads broken off, by clock from 2", reads + 2, FRAME_READ_CLOCKS - 1) +
           print_row("FWH writes broken off, by clock from 2", writes + 2, FRAME_WRITE_CLOCKS - 1);
}

/* The direction of an LPC frame is known from clock 2 on, so that a break there is of neither. */
static uint32_t print_lpc(void)
{
    const uint64_t *reads = breaks[POD_PART_LPC][FRAME_READ], *writes = breaks[POD_PART_LPC][FRAME_WRITE];
    return print_row("LPC clocks", &clocks[POD_PART_LPC], 1) +
           print_row("LPC frames taken, by straps", taken[POD_PART_LPC], POD_LPC_STRAPS_MOST + 1) +
           print_row("LPC start nibbles, from 0", starts[POD_PART_LPC], NIBBLES) +
           print_row("LPC cycle types, from 0", types, NIBBLES) +
           print_row("LPC addresses with one bit flipped, by bit from 20", flips, FLIPS) +
           print_row("LPC frames broken off on clock 2", breaks[POD_PART_LPC][FRAME_BEGUN] + 2, 1) +
           print_row("LPC reads broken off, by clock from 3", reads + 3, FRAME_READ_CLOCKS - 2) +
           print_row("LPC writes broken off, by clock from 3", writes + 3, FRAME_WRITE_CLOCKS - 2);
}

static uint32_t print_commands(void)
{
    uint32_t zeros = 0;
    printf("\n  commands by condition and column, then program and erase setups ended:\n  %-18s", "");
    for (uint32_t column = 0; column < COLUMNS; column++) {
        printf(" %8s", column_names[column]);
    }
    for (uint32_t row = 0; row < CONDITIONS; row++) {
        printf("\n  %-18s", condition_names[row]);
        for (uint32_t column = 0; column < COLUMNS; column++) {
            printf(" %8" PRIu64, commands[row][column]);
            zeros += commands[row][column] == 0;
        }
        printf(" %8" PRIu64 " %8" PRIu64, setups_ended[row][0], setups_ended[row][1]);
    }
    printf("\n");
    /* No other condition has a setup. */
    zeros += setups_ended[READY][0] == 0;
    zeros += setups_ended[READY][1] == 0;
    zeros += setups_ended[ERASE_SUSPENDED][0] == 0;
    return zeros;
}

uint32_t print_tallies(void)
{
    uint32_t zeros = 0;
    printf("diff: reached:\n");
    for (uint32_t i = 0; i < TALLIES; i++) {
        printf("  %-42s %" PRIu64 "\n", names[i], tallies[i]);
        zeros += tallies[i] == 0;
    }
    printf("  calls by number:");
    for (uint32_t i = 0; i < NUMBERS; i++) {
        printf(" %" PRIu32 ": %" PRIu64, i, numbers[i]);
        zeros += numbers[i] == 0;
    }
    zeros += print_fwh();
    zeros += print_lpc();
    return zeros + print_commands();
}
