/* The M50FW080 and the M50LPW080 clock by clock: bus, controller, registers and the calls around them, in plain C. */
#include "model.h"

#include <string.h>

enum {
    STRAPS_MOST = 15,
    LPC_STRAPS_MOST = 3,

    MAKER_CODE = 0x20,
    FWH_DEVICE_CODE = 0x2D,
    LPC_DEVICE_CODE = 0x2F,

    FWH_ADDRESS = 0xFFFFFFF, /* 28 bits; on LPC it is 32 */
    ADDRESS_ARRAY = 0x0400000, /* bit 22: the address is of the array */
    ADDRESS_IN_ARRAY = 0x00FFFFF,

    /* From where a part's registers begin. */
    REGISTER_LOCKS = 0x00002,
    REGISTER_BLOCK = 0xF0000, /* where a lock register's address has its block */
    REGISTER_INPUTS = 0xC0100,
    REGISTER_MAKER = 0xC0000, /* this and the next on FWH only */
    REGISTER_DEVICE = 0xC0001,

    LOCK_WRITE = 1,
    LOCK_DOWN = 2,
    LOCK_READ = 4,
    LOCK_BITS = 7,
    LOCK_FRESH = LOCK_WRITE,

    STATUS_PROTECTED = 0x02,
    STATUS_VOLTAGE = 0x08,
    STATUS_PROGRAM = 0x10,
    STATUS_ERASE = 0x20,

    DRIVES = 0x10, /* the bit of an answer that says the part drives */
    DRIVES_WAIT = 0x15,
    DRIVES_SYNC = 0x10,
    DRIVES_TURN = 0x1F,

    TOP_BLOCK = 15,
    ERASE_CONFIRM = 0xD0
};

static const struct model_times default_times = {10, 3906, 30};

/* Where the registers begin: on FWH always here, on LPC so for the boot memory, whose straps are 0, and a window lower
 * for each further memory of Table 3. */
static const uint32_t fwh_registers = 0xFB00000;
static const uint32_t lpc_registers = 0xFFB00000;
static const uint32_t lpc_window = 0x100000;

/* What each condition shows in the status register, errors aside. */
static const uint8_t status_of[] = {
    [READY] = 0x80,
    [RUNNING] = 0x00,
    [PAUSING] = 0x00,
    [PROGRAM_SUSPENDED] = 0x84,
    [ERASE_SUSPENDED] = 0xC0,
    [PROGRAM_INSIDE] = 0x40,
};

/* The command table, by condition and by column. A, S and G set array, status and signature mode, C clears the errors,
 * P and E begin a setup, Z asks for a pause, R resumes, O does nothing. */
enum column { COL_FF, COL_70, COL_90, COL_50, COL_40, COL_20, COL_B0, COL_D0, COL_OTHER, COLUMNS };

enum action { O, A, S, G, C, P, E, Z, R };

static const uint8_t action_of[][COLUMNS] = {
    /*                      FF 70 90 50 40 20 B0 D0 other */
    [READY]             = { A, S, G, C, P, E, O, O, O },
    [RUNNING]           = { O, S, O, O, O, O, Z, O, O },
    [PAUSING]           = { O, O, O, O, O, O, O, O, O },
    [PROGRAM_SUSPENDED] = { A, S, G, O, O, O, O, R, O },
    [ERASE_SUSPENDED]   = { A, S, G, O, P, O, O, R, O },
    [PROGRAM_INSIDE]    = { O, S, O, O, O, O, O, O, O },
};

static enum column column_of(uint8_t byte)
{
    switch (byte) {
    case 0xFF: return COL_FF;
    case 0x70: return COL_70;
    case 0x90:
    case 0x98: return COL_90;
    case 0x50: return COL_50;
    case 0x40:
    case 0x10: return COL_40;
    case 0x20: return COL_20;
    case 0xB0: return COL_B0;
    case 0xD0: return COL_D0;
    default:   return COL_OTHER;
    }
}

static uint32_t clocks(uint32_t microseconds)
{
    return microseconds * MODEL_CLOCKS_PER_MICROSECOND;
}

static bool times_in_range(struct model_times t)
{
    return t.program >= 1 && t.program <= 200 && t.slice >= 1 && t.slice <= 39062 && t.pause >= 1 && t.pause <= 30;
}

static inline uint8_t status(const struct model *m)
{
    return (uint8_t)(status_of[m->condition] | m->errors);
}

static inline bool busy(const struct model *m)
{
    return !(status_of[m->condition] & 0x80);
}

static void mark(struct model *m, uint32_t block)
{
    m->marks = (uint16_t)(m->marks | 1u << block);
}

/* Step 1: a reset cuts off whatever operations stand and spoils their blocks. */
static void reset(struct model *m)
{
    switch (m->condition) {
    case RUNNING:
    case PAUSING:
        mark(m, m->erasing ? m->erase.block : m->program.address / MODEL_BLOCK_BYTES);
        break;
    case PROGRAM_SUSPENDED:
        mark(m, m->program.address / MODEL_BLOCK_BYTES);
        break;
    case ERASE_SUSPENDED:
        mark(m, m->erase.block);
        break;
    case PROGRAM_INSIDE:
        mark(m, m->program.address / MODEL_BLOCK_BYTES);
        mark(m, m->erase.block);
        break;
    default:
        break;
    }
    m->condition = READY;
    m->mode = MODE_ARRAY;
    m->setup = SETUP_NONE;
    m->errors = 0;
    m->frame = FRAME_NONE;
    memset(m->locks, LOCK_FRESH, sizeof m->locks);
}

/* Step 2: one clock of an operation that runs or pauses, then one of its pause. */
static inline void controller(struct model *m, uint8_t *image)
{
    if (m->erasing) {
        if (--m->erase.left == 0) {
            memset(image + m->erase.next, 0xFF, MODEL_SLICE_BYTES);
            m->erase.next += MODEL_SLICE_BYTES;
            m->erase.left = m->erase.slice_clocks;
            if (m->erase.next % MODEL_BLOCK_BYTES == 0) {
                m->marks = (uint16_t)(m->marks & ~(1u << m->erase.block));
                m->condition = READY;
                return;
            }
        }
    } else if (--m->program.left == 0) {
        image[m->program.address] &= m->program.data;
        m->condition = m->condition == PROGRAM_INSIDE ? ERASE_SUSPENDED : READY;
        return;
    }
    if (m->condition == PAUSING && --m->pause_left == 0)
        m->condition = m->erasing ? ERASE_SUSPENDED : PROGRAM_SUSPENDED;
}

/* The array write that ends a setup: judged once, with the pins of this very sample. */
static void end_setup(struct model *m, uint32_t address, uint8_t byte, uint32_t sample)
{
    const bool erase = m->setup == SETUP_ERASE;
    const uint32_t block = address / MODEL_BLOCK_BYTES;
    const uint32_t pin = block == TOP_BLOCK ? SAMPLE_TBL : SAMPLE_WP;

    m->setup = SETUP_NONE;
    if (erase && byte != ERASE_CONFIRM) {
        m->errors |= STATUS_PROGRAM | STATUS_ERASE;
    } else if (!(sample & SAMPLE_CLASS)) {
        m->errors |= STATUS_VOLTAGE;
    } else if (!(sample & pin) || (m->locks[block] & LOCK_WRITE)) {
        m->errors |= STATUS_PROTECTED;
    } else if (m->condition == ERASE_SUSPENDED && block == m->erase.block) {
        m->errors |= STATUS_PROGRAM;
    } else if (erase) {
        m->erase.block = (uint8_t)block;
        m->erase.next = block * MODEL_BLOCK_BYTES;
        m->erase.slice_clocks = clocks(m->times.slice);
        m->erase.left = m->erase.slice_clocks;
        m->erase.pause_clocks = clocks(m->times.pause);
        m->erasing = true;
        m->condition = RUNNING;
    } else {
        m->program.address = address;
        m->program.data = byte;
        m->program.left = clocks(m->times.program);
        m->program.pause_clocks = clocks(m->times.pause);
        m->erasing = false;
        m->condition = m->condition == ERASE_SUSPENDED ? PROGRAM_INSIDE : RUNNING;
    }
}

static void command(struct model *m, uint8_t byte)
{
    switch ((enum action)action_of[m->condition][column_of(byte)]) {
    case O:
        break;
    case A:
        m->mode = MODE_ARRAY;
        break;
    case S:
        m->mode = MODE_STATUS;
        break;
    case G:
        m->mode = MODE_SIGNATURE;
        break;
    case C:
        m->errors = 0;
        break;
    case P:
        m->setup = SETUP_PROGRAM;
        m->mode = MODE_STATUS;
        break;
    case E:
        m->setup = SETUP_ERASE;
        m->mode = MODE_STATUS;
        break;
    case Z:
        m->pause_left = m->erasing ? m->erase.pause_clocks : m->program.pause_clocks;
        m->condition = PAUSING;
        break;
    case R:
        m->erasing = m->condition == ERASE_SUSPENDED;
        m->condition = RUNNING;
        m->mode = MODE_STATUS;
        break;
    }
}

/* How far behind the part's first register an address is; all its bits count. */
static uint32_t register_at(const struct model *m, uint32_t address)
{
    return address - (m->part == PART_LPC ? lpc_registers - m->straps * lpc_window : fwh_registers);
}

static bool is_lock(uint32_t at)
{
    return (at & ~(uint32_t)REGISTER_BLOCK) == REGISTER_LOCKS;
}

static uint32_t lock_block(uint32_t at)
{
    return at / MODEL_BLOCK_BYTES;
}

static void write_register(struct model *m, uint32_t at, uint8_t byte)
{
    if (is_lock(at) && !(m->locks[lock_block(at)] & LOCK_DOWN))
        m->locks[lock_block(at)] = byte & LOCK_BITS;
}

static void write_byte(struct model *m, uint32_t address, uint8_t byte, uint32_t sample)
{
    if (!(address & ADDRESS_ARRAY))
        write_register(m, register_at(m, address), byte);
    else if (m->setup == SETUP_NONE)
        command(m, byte);
    else
        end_setup(m, address & ADDRESS_IN_ARRAY, byte, sample);
}

static uint8_t read_register(const struct model *m, uint32_t at, uint32_t sample)
{
    const bool coded = m->part == PART_FWH;

    if (is_lock(at))
        return m->locks[lock_block(at)];
    switch (at) {
    case REGISTER_INPUTS: return (uint8_t)(sample >> SAMPLE_INPUTS_SHIFT);
    case REGISTER_MAKER:  return coded ? MAKER_CODE : 0;
    case REGISTER_DEVICE: return coded ? FWH_DEVICE_CODE : 0;
    default:              return 0;
    }
}

static uint8_t read_signature(const struct model *m, uint32_t place)
{
    if (place == 0)
        return MAKER_CODE;
    if (place != 1)
        return 0;
    return m->part == PART_LPC ? LPC_DEVICE_CODE : FWH_DEVICE_CODE;
}

static uint8_t read_byte(const struct model *m, const uint8_t *image, uint32_t address, uint32_t sample)
{
    if (!(address & ADDRESS_ARRAY))
        return read_register(m, register_at(m, address), sample);
    address &= ADDRESS_IN_ARRAY;
    switch (m->mode) {
    case MODE_STATUS:
        return status(m);
    case MODE_SIGNATURE:
        return read_signature(m, address);
    default:
        return m->locks[address / MODEL_BLOCK_BYTES] & LOCK_READ ? 0 : image[address];
    }
}

/* What a low frame line begins, by the nibble on the lines. */
static inline uint8_t begun(const struct model *m, uint32_t lines)
{
    if (m->part == PART_LPC)
        return lines == 0x0 ? FRAME_BEGUN : FRAME_NONE;
    return lines == 0xD ? FRAME_READ : lines == 0xE ? FRAME_WRITE : FRAME_NONE;
}

/* Clocks 2 to 10 of an FWH frame: the straps, seven nibbles of address and the size. */
static inline void fwh_head(struct model *m, uint32_t clock, uint32_t lines)
{
    if (clock == 2) {
        if (lines != m->straps)
            m->frame = FRAME_NONE;
    } else if (clock < 10) {
        m->address = (m->address << 4 | lines) & FWH_ADDRESS;
    } else if (lines != 0) {
        m->frame = FRAME_NONE;
    }
}

/* Whether an LPC address is this part's: A31 to A23 all 1, A21 and A20 each the opposite of its pin, ID1 and ID0. */
static bool lpc_selected(const struct model *m)
{
    const uint32_t pins = ~(m->address >> 20) & 3;

    return m->address >> 23 == 0x1FF && pins == m->straps;
}

/* Clocks 2 to 10 of an LPC frame: the cycle type, which says the direction, and eight nibbles of address. */
static inline void lpc_head(struct model *m, uint32_t clock, uint32_t lines)
{
    if (clock == 2) {
        m->frame = lines >> 1 == 2 ? FRAME_READ : lines >> 1 == 3 ? FRAME_WRITE : FRAME_NONE;
        return;
    }
    m->address = m->address << 4 | lines;
    if (clock == 10 && !lpc_selected(m))
        m->frame = FRAME_NONE;
}

/* Step 3: one clock of the bus. */
static inline uint8_t bus(struct model *m, const uint8_t *image, uint32_t sample)
{
    const uint32_t lines = sample & SAMPLE_LINES;

    if (!(sample & SAMPLE_FRAME)) {
        m->frame = begun(m, lines);
        m->clock = 1;
        m->address = 0;
        return 0;
    }
    if (m->frame == FRAME_NONE)
        return 0;

    const uint8_t clock = ++m->clock;
    if (clock <= 10) {
        if (m->part == PART_LPC)
            lpc_head(m, clock, lines);
        else
            fwh_head(m, clock, lines);
        return 0;
    }
    if (m->frame == FRAME_READ) {
        switch (clock) {
        case 13:
        case 14: return DRIVES_WAIT;
        case 15: m->byte = read_byte(m, image, m->address, sample); return DRIVES_SYNC;
        case 16: return (uint8_t)(DRIVES | (m->byte & 0xF));
        case 17: return (uint8_t)(DRIVES | m->byte >> 4);
        case 18: return DRIVES_TURN;
        case 19: m->frame = FRAME_NONE; return 0;
        default: return 0;
        }
    }
    switch (clock) {
    case 11: m->byte = (uint8_t)lines; return 0;
    case 12: m->byte = (uint8_t)(m->byte | lines << 4); write_byte(m, m->address, m->byte, sample); return 0;
    case 15: return DRIVES_SYNC;
    case 16: return DRIVES_TURN;
    case 17: m->frame = FRAME_NONE; return 0;
    default: return 0;
    }
}

static inline uint8_t one_clock(struct model *m, uint8_t *image, uint32_t sample)
{
    if ((sample & (SAMPLE_RP | SAMPLE_INIT)) != (SAMPLE_RP | SAMPLE_INIT)) {
        reset(m);
        return 0;
    }
    if (busy(m))
        controller(m, image);
    return bus(m, image, sample);
}

static bool class_three(uint32_t sample)
{
    return (sample & SAMPLE_CLASS) == SAMPLE_CLASS;
}

static bool straps_allowed(uint32_t part, uint32_t straps)
{
    switch (part) {
    case PART_FWH: return straps <= STRAPS_MOST;
    case PART_LPC: return straps <= LPC_STRAPS_MOST;
    default:       return false;
    }
}

uint32_t model_power_up(struct model *m, uint32_t part, uint32_t straps, struct model_times times)
{
    const uint32_t number = !straps_allowed(part, straps) ? NUMBER_STRAPS
                            : !times_in_range(times)      ? NUMBER_TIME
                                                          : NUMBER_DONE;

    memset(m, 0, sizeof *m);
    m->part = number == NUMBER_DONE ? (uint8_t)part : PART_FWH;
    m->straps = number == NUMBER_DONE ? (uint8_t)straps : 0;
    m->times = number == NUMBER_DONE ? times : default_times;
    reset(m);
    return number;
}

uint32_t model_set_times(struct model *m, struct model_times times)
{
    if (!times_in_range(times))
        return NUMBER_TIME;
    m->times = times;
    return NUMBER_DONE;
}

uint32_t model_step(struct model *m, uint8_t *image, size_t image_len, uint16_t sample, uint8_t *answer)
{
    *answer = 0;
    if (image_len != MODEL_IMAGE_BYTES)
        return NUMBER_IMAGE;
    if (class_three(sample))
        return NUMBER_CLASS;
    *answer = one_clock(m, image, sample);
    return NUMBER_DONE;
}

uint32_t model_settle(struct model *m, uint8_t *image, size_t image_len, uint16_t sample, uint32_t limit,
                      uint32_t *count)
{
    const uint32_t idle = SAMPLE_FRAME | SAMPLE_RP | SAMPLE_INIT;

    *count = 0;
    if (image_len != MODEL_IMAGE_BYTES)
        return NUMBER_IMAGE;
    if (class_three(sample))
        return NUMBER_CLASS;
    if ((sample & idle) != idle)
        return NUMBER_NOT_IDLE;
    uint32_t done = 0;
    while (busy(m) && done < limit) {
        one_clock(m, image, sample);
        done++;
    }
    *count = done;
    return busy(m) ? NUMBER_STILL_BUSY : NUMBER_DONE;
}

static uint32_t sample_at(const uint8_t *stream, size_t n)
{
    return stream[2 * n] | (uint32_t)stream[2 * n + 1] << 8;
}

struct model_report model_run(uint8_t *image, size_t image_len, const uint8_t *stream, size_t stream_len,
                              uint8_t *answers, size_t answers_len, uint32_t part, uint32_t straps,
                              struct model_times times)
{
    const size_t samples = stream_len / 2;
    struct model_report report = {0, 0, 0, 0};
    struct model m;

    report.number = image_len != MODEL_IMAGE_BYTES ? NUMBER_IMAGE : model_power_up(&m, part, straps, times);
    if (report.number != NUMBER_DONE)
        return report;
    if (stream_len % 2 != 0 || stream_len > MODEL_STREAM_BYTES) {
        report.number = NUMBER_STREAM;
        return report;
    }
    if (answers_len < samples) {
        report.number = NUMBER_ROOM;
        return report;
    }
    for (size_t n = 0; n < samples; n++) {
        if (class_three(sample_at(stream, n))) {
            report.number = NUMBER_CLASS;
            return report;
        }
    }
    for (size_t n = 0; n < samples; n++)
        answers[n] = one_clock(&m, image, sample_at(stream, n));
    report.samples = (uint32_t)samples;
    report.status = status(&m);
    report.marks = m.marks;
    return report;
}

struct model_part model_view(const struct model *m, size_t image_len, const uint8_t *page, size_t page_len,
                             uint32_t block)
{
    const struct model_part front = {0, 0, 0};

    if (image_len != MODEL_IMAGE_BYTES || block >= MODEL_BLOCKS || page_len != MODEL_BLOCK_BYTES)
        return front;
    for (size_t n = 0; n < page_len; n++)
        if (page[n] != 0)
            return front;
    if (m->locks[block] & LOCK_READ)
        return (struct model_part){2, 0, MODEL_BLOCK_BYTES};
    return (struct model_part){1, block * MODEL_BLOCK_BYTES, MODEL_BLOCK_BYTES};
}

/* A sheet is two tagged fields: 01h with the straps, 02h with the three times. */
static const uint8_t sheet_straps_head[] = {0x01, 0x01, 0x00};
static const uint8_t sheet_times_head[] = {0x02, 0x06, 0x00};

static uint32_t two_bytes(const uint8_t *at)
{
    return at[0] | (uint32_t)at[1] << 8;
}

static void put_two_bytes(uint8_t *at, uint32_t value)
{
    at[0] = (uint8_t)value;
    at[1] = (uint8_t)(value >> 8);
}

struct model_sheet model_sheet_read(const uint8_t *sheet, size_t sheet_len)
{
    struct model_sheet read = {0, 0, {0, 0, 0}};

    if (sheet_len != MODEL_SHEET_BYTES || memcmp(sheet, sheet_straps_head, 3) != 0 ||
        memcmp(sheet + 4, sheet_times_head, 3) != 0) {
        read.number = NUMBER_SHEET;
        return read;
    }
    const struct model_times times = {two_bytes(sheet + 7), two_bytes(sheet + 9), two_bytes(sheet + 11)};
    if (sheet[3] > STRAPS_MOST) {
        read.number = NUMBER_STRAPS;
    } else if (!times_in_range(times)) {
        read.number = NUMBER_TIME;
    } else {
        read.straps = sheet[3];
        read.times = times;
    }
    return read;
}

uint32_t model_sheet_write(uint8_t *buffer, size_t buffer_len, uint32_t straps, struct model_times times)
{
    if (straps > STRAPS_MOST)
        return NUMBER_STRAPS;
    if (!times_in_range(times))
        return NUMBER_TIME;
    if (buffer_len < MODEL_SHEET_BYTES)
        return NUMBER_ROOM;
    memcpy(buffer, sheet_straps_head, 3);
    buffer[3] = (uint8_t)straps;
    memcpy(buffer + 4, sheet_times_head, 3);
    put_two_bytes(buffer + 7, times.program);
    put_two_bytes(buffer + 9, times.slice);
    put_two_bytes(buffer + 11, times.pause);
    return NUMBER_DONE;
}

uint32_t model_status(const struct model *m)
{
    return status(m);
}

uint32_t model_marks(const struct model *m)
{
    return m->marks;
}
