/* The language in which traffic is written: lines of text that lay samples down, one after the other.
 *
 * Addresses, bytes, nibbles and samples are written in hexadecimal, everything else in decimal. An address has 28 bits,
 * on LPC 32. # begins a comment.
 *
 *   part fwh|lpc                  whose frames are laid (fwh when not said); before any sample
 *   straps N                      what FWH frames select (0 when not said); LPC addresses are written whole, with the
 *                                 bits that the straps ask for; before any sample
 *   pin tbl|wp low|high           from the next sample on (high when not said)
 *   voltage N | inputs XX         from the next sample on (1 and 00 when not said)
 *   lines N                       what the host leaves on the lines of an idle sample (F when not said)
 *   write ADDRESS BYTE [options]  a write frame
 *   read ADDRESS [= BYTE] [options]    a read frame, which is to give the byte
 *       break CLOCK               the frame line is low on that clock, the lines at `nibble N` (F), and the frame ends
 *       cut CLOCK                 the frame stops before that clock; `on` goes on with it
 *       strap N, size N, start N, turn N   another nibble than the right one (turn: all clocks of turnaround)
 *       type N                    the same on LPC, for the cycle type of clock 2; it has no straps and no size there
 *       silent                    the part is not to drive at all
 *   on [N]                        the next N clocks, or all, of the frame that was cut
 *   idle N                        N samples, at most 1,000,000
 *   reset rp|init|both N          the same with these pins low
 *   raw SAMPLE..                  samples as they are
 *
 * Whoever reads a file may have lines of its own besides. */
#ifndef BUS_SCRIPT_H
#define BUS_SCRIPT_H

#include "bus/frames.h"
#include "bus/words.h"

#include <stdbool.h>
#include <stddef.h>
#include <stdint.h>

enum { SCRIPT_UNCHECKED = -1, SCRIPT_REPEATS_MOST = 1000000 };

/* A sample that was laid, by which line, and the answer that the part is to give to it, or SCRIPT_UNCHECKED. */
struct laid {
    uint16_t sample;
    int answer;
    unsigned line;
};

/* The frame of the last read or write: as far as it is laid, and how it is to go on. */
struct script_frame {
    struct frame frame;
    bool silent;
    bool valued;      /* what a read gives is said */
    bool broken;      /* its last clock breaks it off */
    unsigned nibble;  /* then on the lines */
    unsigned clock;   /* laid so far */
    unsigned clocks;  /* to be laid in all */
};

/* What was laid so far, and what holds for the next line. */
struct script {
    struct laid *laid;
    size_t count;
    size_t room;
    size_t most; /* no more samples than these are laid */
    uint32_t part; /* POD_PART_.. */
    uint32_t straps;
    uint16_t idle;
    bool open; /* the part may still be in a frame: what it answers to an idle sample is not known */
    struct script_frame last;
};

void script_begin(struct script *script, size_t most);
void script_free(struct script *script);

/* Takes a line, from its first word to its end; false, with no word taken, where the first is none of those above. What
 * is wrong with the line is then to be found in `words`. */
bool script_take(struct script *script, struct words *words);

/* Lays the idle sample so often, on behalf of a line. */
void script_idle(struct script *script, struct words *words, uint32_t times);

#endif
