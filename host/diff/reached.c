/* What a clock or a settle reached. */
#include "diff/reached.h"

#include "bus/addresses.h"
#include "bus/frames.h"
#include "bus/pins.h"
#include "diff/condition.h"
#include "diff/counts.h"
#include "pod.h"

#include <stdbool.h>

/* What the controller's clock came to, before the frame's. */
struct controlled {
    uint8_t condition; /* the condition that it left */
    bool ended;        /* an operation ended on it */
    bool suspended;    /* a pause ended on it */
};

/* The block whose bits an address has, in the array or among the lock registers. */
static uint32_t block_in(uint32_t address)
{
    return block_of(address % POD_IMAGE_BYTES);
}

static bool is_lock_register(const struct model *m, uint32_t address)
{
    return address == lock_address(m->part, m->straps, block_in(address));
}

/* The maker and the device code of FWH, or what is at their place on LPC. */
static bool is_at_codes(const struct model *m, uint32_t address)
{
    const uint32_t codes = codes_address(m->part, m->straps);
    return address == codes || address == codes + 1;
}

/* Whether a judgement now would turn down the operation that is ending. */
static bool pins_against(const struct model *m, uint32_t block, uint16_t sample)
{
    const unsigned pin = block == POD_BLOCKS - 1 ? POD_SAMPLE_TBL : POD_SAMPLE_WP;
    return sample_voltage(sample) == POD_VOLTAGE_LOCKOUT || !sample_has(sample, pin) ||
           (m->locks[block] & POD_LOCK_WRITE) != 0;
}

static bool erase_is_at_end(const struct model *m)
{
    return m->erase.left == 1 && slices_after(m) == 0;
}

static void count_reset(const struct model *before, const struct model *after, uint16_t sample)
{
    const bool rp = !sample_has(sample, POD_SAMPLE_RP), init = !sample_has(sample, POD_SAMPLE_INIT);
    const unsigned marked = after->marks & ~(unsigned)before->marks;
    tally(rp && init ? RESETS_BOTH : rp ? RESETS_RP : RESETS_INIT);
    if (marked != 0) {
        tally(MARKS_SET);
    }
    if ((marked & (marked - 1)) != 0) {
        tally(TWO_MARKS_AT_ONCE);
    }
    if (before->condition == READY) {
        return;
    }
    tally(is_erase(before) ? RESETS_ERASE : RESETS_PROGRAM);
    if (before->condition == PAUSING) {
        tally(RESETS_PAUSING);
    }
    if (!is_busy(before)) {
        tally(RESETS_SUSPENDED);
    } else if (before->erasing ? erase_is_at_end(before) : before->program.left == 1) {
        tally(RESETS_LAST_CLOCK);
    }
}

static void count_end(const struct model *before, const struct model *after, uint16_t sample)
{
    const uint32_t block = before->erasing ? before->erase.block : block_of(before->program.address);
    tally(before->erasing ? ERASES_FINISHED : PROGRAMS_FINISHED);
    if (before->condition == PROGRAM_INSIDE) {
        tally(INNER_FINISHED);
    }
    if (before->condition == PAUSING) {
        tally(before->pause_left == 1 ? ENDED_WITH_PAUSE : ENDED_IN_PAUSE);
    }
    if (pins_against(before, block, sample)) {
        tally(PINS_AGAINST_END);
    }
    if ((before->marks & ~after->marks) != 0) {
        tally(MARKS_REMOVED);
    }
}

static void count_register_read(const struct model *m, uint32_t address)
{
    const bool codes = is_at_codes(m, address), lpc = m->part == POD_PART_LPC;
    if (lpc && codes) {
        tally(READS_LPC_CODES);
    } else if (codes || is_lock_register(m, address) || address == inputs_address(m->part, m->straps)) {
        tally(lpc ? READS_LPC_REGISTER : READS_REGISTER);
    } else {
        tally(READS_NO_REGISTER);
    }
}

static void count_read(const struct model *before, const struct model *after, const struct controlled *controlled)
{
    const uint32_t address = after->address;
    if (controlled->ended || controlled->suspended) {
        tally(READS_END_ON_15);
    }
    if ((address & ADDRESS_IS_ARRAY) == 0) {
        count_register_read(before, address);
    } else if (before->mode == MODE_ARRAY) {
        tally((before->locks[block_in(address)] & POD_LOCK_READ) != 0 ? READS_LOCKED : READS_ARRAY);
    } else if (before->mode == MODE_STATUS) {
        tally(READS_STATUS);
    } else {
        tally(before->part == POD_PART_LPC ? READS_LPC_SIGNATURE : READS_SIGNATURE);
    }
}

static void count_setup_ended(const struct model *before, const struct model *after)
{
    const unsigned risen = after->errors & ~(unsigned)before->errors;
    if (after->condition == PROGRAM_INSIDE) {
        tally(INNER_BEGUN);
    }
    if ((risen & POD_STATUS_PROTECTED) != 0) {
        tally(ERROR_1);
    }
    if ((risen & POD_STATUS_VOLTAGE) != 0) {
        tally(ERROR_3);
    }
    if ((risen & POD_STATUS_PROGRAM) != 0) {
        tally(before->setup == SETUP_PROGRAM ? ERROR_4_ALONE : ERROR_4);
    }
    if ((risen & POD_STATUS_ERASE) != 0) {
        tally(ERROR_5);
    }
}

static void count_write(const struct model *before, const struct model *after, const struct controlled *controlled)
{
    const uint32_t address = after->address;
    if ((address & ADDRESS_IS_ARRAY) == 0) {
        if (is_lock_register(before, address) && (before->locks[block_in(address)] & POD_LOCK_DOWN) != 0) {
            tally(LOCK_DOWN_HELD);
        }
        return;
    }
    if (before->setup != SETUP_NONE) {
        tally_setup_ended(controlled->condition, before->setup);
        count_setup_ended(before, after);
        return;
    }
    tally_command(controlled->condition, after->byte);
    if (controlled->ended) {
        tally(ENDED_BEFORE_COMMAND);
    }
    if (before->errors != 0 && after->errors == 0) {
        tally(ERRORS_CLEARED);
    }
    if (after->condition == RUNNING && controlled->condition != RUNNING) {
        tally(controlled->condition == ERASE_SUSPENDED ? ERASE_RESUMES : PROGRAM_RESUMES);
        if (controlled->suspended) {
            tally(RESUMED_AT_PAUSE_END);
        }
    }
}

/* An LPC address on the clock that it is whole: what there is against it, and which one bit from 20 on is another than
 * in an address of the array. */
static void count_lpc_address(const struct model *m)
{
    const uint32_t right = array_address(POD_PART_LPC, m->straps, 0);
    const uint32_t wrong = (m->address ^ right) & ~(uint32_t)(POD_IMAGE_BYTES - 1);
    const uint32_t against = wrong & ~(uint32_t)ADDRESS_IS_ARRAY;
    if ((m->address & ADDRESS_LPC_HIGH) != ADDRESS_LPC_HIGH) {
        tally(LPC_HIGH_MISMATCHES);
    } else if (against != 0) {
        tally(LPC_PIN_MISMATCHES);
    }
    const uint32_t flipped = against != 0 ? against : wrong;
    for (uint32_t bit = 20; bit < 32; bit++) {
        if (flipped == 1u << bit) {
            tally_flip(bit);
        }
    }
}

/* The clocks on which a frame may be dropped. */
static void count_head(const struct model *after, uint32_t clock, uint16_t sample)
{
    const bool lpc = after->part == POD_PART_LPC, dropped = after->frame == FRAME_NONE;
    if (clock == FRAME_CLOCK_SELECT && lpc) {
        tally_type(sample & POD_SAMPLE_LINES);
    } else if (clock == FRAME_CLOCK_SELECT && dropped) {
        tally(STRAP_MISMATCHES);
    } else if (clock == FRAME_CLOCK_JUDGED && lpc) {
        count_lpc_address(after);
    } else if (clock == FRAME_CLOCK_SIZE && dropped) {
        tally(SIZES_NOT_0);
    }
    if (clock == FRAME_CLOCK_JUDGED && !dropped) {
        tally_straps(after->part, after->straps);
    }
}

static void count_frame(const struct model *before, const struct model *after, uint16_t sample,
                        const struct controlled *controlled)
{
    const uint32_t clock = before->clock + 1u;
    if (!sample_has(sample, POD_SAMPLE_FRAME)) {
        tally_start(after->part, sample & POD_SAMPLE_LINES);
        if (before->frame != FRAME_NONE) {
            tally_break(before->part, before->frame, clock);
        }
        if (after->frame == FRAME_NONE) {
            tally(OTHER_STARTS);
        }
        return;
    }
    if (before->frame == FRAME_NONE) {
        return;
    }
    count_head(after, clock, sample);
    if (clock == FRAME_CLOCK_ACT && before->frame == FRAME_WRITE) {
        count_write(before, after, controlled);
    }
    if (clock == FRAME_CLOCK_SYNC && before->frame == FRAME_READ) {
        count_read(before, after, controlled);
    }
}

struct changed count_clock(const struct model *before, const struct model *after, uint16_t sample)
{
    tally_clock(before->part);
    if (!sample_has(sample, POD_SAMPLE_RP) || !sample_has(sample, POD_SAMPLE_INIT)) {
        count_reset(before, after, sample);
        return (struct changed){ .place = 0, .length = 0 };
    }
    const bool busy = is_busy(before);
    const bool filled = busy && before->erasing && before->erase.left == 1;
    const bool programmed = busy && !before->erasing && before->program.left == 1;
    struct controlled controlled = { .condition = before->condition };
    controlled.ended = programmed || (filled && erase_is_at_end(before));
    controlled.suspended = !controlled.ended && before->condition == PAUSING && before->pause_left == 1;
    if (controlled.ended) {
        controlled.condition = before->condition == PROGRAM_INSIDE ? ERASE_SUSPENDED : READY;
        count_end(before, after, sample);
    }
    if (controlled.suspended) {
        controlled.condition = before->erasing ? ERASE_SUSPENDED : PROGRAM_SUSPENDED;
        tally(before->erasing ? ERASE_SUSPENDS : PROGRAM_SUSPENDS);
    }
    count_frame(before, after, sample, &controlled);
    if (filled) {
        tally(SLICES_FILLED);
        return (struct changed){ .place = before->erase.next, .length = POD_SLICE_BYTES };
    }
    return (struct changed){ .place = before->program.address, .length = programmed ? 1 : 0 };
}

void count_settle(const struct model *before, const struct model *after, const struct settling *settling)
{
    const uint32_t count = settling->count;
    if (settling->limit == 0) {
        tally(SETTLE_ZERO);
    }
    if (settling->number == POD_STILL_BUSY) {
        tally(SETTLE_SHORT);
    } else if (count == 0) {
        tally(SETTLE_READY);
    } else {
        tally(settling->limit == count ? SETTLE_JUST_DONE : SETTLE_DONE);
    }
    if (before->frame != FRAME_NONE && count > 0) {
        tally(SETTLE_IN_FRAME);
        if (before->frame == FRAME_BEGUN) {
            tally(SETTLE_LPC_BEGUN);
        }
        if (before->frame == FRAME_WRITE && before->clock < FRAME_CLOCK_ACT &&
            before->clock + count >= FRAME_CLOCK_ACT && (after->frame == FRAME_WRITE || count > 6)) {
            tally(SETTLE_FRAME_ACTED);
        }
    }
    tally_by(SETTLE_CLOCKS, count);
}
