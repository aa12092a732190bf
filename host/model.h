/* A model of the M50FW080 on its Firmware Hub interface and of the M50LPW080 on its LPC interface, written by hand in
 * plain C as a second opinion on the proved one: same calls, same numbered answers, nothing shared. */
#ifndef MODEL_H
#define MODEL_H

#include <stdbool.h>
#include <stddef.h>
#include <stdint.h>

enum {
    MODEL_IMAGE_BYTES = 1048576,
    MODEL_BLOCKS = 16,
    MODEL_BLOCK_BYTES = 65536,
    MODEL_SLICE_BYTES = 256,
    MODEL_STREAM_BYTES = 131072,
    MODEL_SHEET_BYTES = 13,
    MODEL_CLOCKS_PER_MICROSECOND = 33
};

/* The bits of a sample. */
enum {
    SAMPLE_LINES = 0x000F,
    SAMPLE_FRAME = 0x0010,
    SAMPLE_RP = 0x0020,
    SAMPLE_INIT = 0x0040,
    SAMPLE_TBL = 0x0080,
    SAMPLE_WP = 0x0100,
    SAMPLE_CLASS = 0x0600,
    SAMPLE_CLASS_SHIFT = 9,
    SAMPLE_INPUTS_SHIFT = 11
};

/* The numbered answers. */
enum {
    NUMBER_DONE = 0,
    NUMBER_UNSOUND = 1,
    NUMBER_IMAGE = 2,
    NUMBER_STRAPS = 3,
    NUMBER_TIME = 4,
    NUMBER_STREAM = 5,
    NUMBER_ROOM = 6,
    NUMBER_CLASS = 7,
    NUMBER_SHEET = 8,
    NUMBER_NOT_IDLE = 9,
    NUMBER_STILL_BUSY = 10
};

/* The parts: the M50FW080 and the M50LPW080. */
enum model_part_number { PART_FWH, PART_LPC };

/* The controller's condition: the rows of the command table. */
enum model_condition {
    READY,
    RUNNING,
    PAUSING,
    PROGRAM_SUSPENDED,
    ERASE_SUSPENDED,
    PROGRAM_INSIDE /* a program inside a suspended erase */
};

enum model_mode { MODE_ARRAY, MODE_STATUS, MODE_SIGNATURE };
enum model_setup { SETUP_NONE, SETUP_PROGRAM, SETUP_ERASE };
enum model_frame {
    FRAME_NONE,
    FRAME_READ,
    FRAME_WRITE,
    FRAME_BEGUN /* an LPC frame before its cycle type, at clock 1 */
};

/* Three times in microseconds. */
struct model_times {
    uint32_t program, slice, pause;
};

/* One part. A program and an erase have a record each, since at most one of either exists; the condition tells which
 * of the two records stand, and `erasing` which of them is the one that runs or pauses. */
struct model {
    struct model_times times;
    uint8_t part; /* model_part_number */
    uint8_t straps;
    uint8_t locks[MODEL_BLOCKS];

    uint8_t frame;    /* model_frame */
    uint8_t clock;    /* the last clock of the frame that is done */
    uint8_t byte;     /* the data byte of the frame */
    uint32_t address; /* the address of the frame, as far as it has come */

    uint8_t condition; /* model_condition */
    uint8_t mode;      /* model_mode */
    uint8_t setup;     /* model_setup */
    uint8_t errors;    /* status bits 1, 3, 4 and 5 */
    uint16_t marks;    /* bit b: block b is spoiled */
    bool erasing;
    uint32_t pause_left; /* clocks of the pending pause */

    struct {
        uint32_t address;
        uint32_t left;         /* clocks */
        uint32_t pause_clocks; /* what a pause of it takes */
        uint8_t data;
    } program;

    struct {
        uint32_t next;         /* where the slice being erased begins */
        uint32_t left;         /* clocks of that slice */
        uint32_t slice_clocks; /* what each slice takes */
        uint32_t pause_clocks;
        uint8_t block;
    } erase;
};

struct model_report {
    uint32_t number, samples, status, marks;
};
struct model_sheet {
    uint32_t number, straps;
    struct model_times times;
};
struct model_part {
    uint32_t from, start, length; /* from: 0 the page's empty front, 1 the image, 2 the page */
};

/* Power up. Refused, `m` is an M50FW080 with straps 0 and the times 10, 3,906 and 30. */
uint32_t model_power_up(struct model *m, uint32_t part, uint32_t straps, struct model_times times);

/* Set the times of operations accepted later. */
uint32_t model_set_times(struct model *m, struct model_times times);

/* One clock: `answer` is 00h when the part does not drive, 10h and the nibble when it does. */
uint32_t model_step(struct model *m, uint8_t *image, size_t image_len, uint16_t sample, uint8_t *answer);

/* Repeat one idle sample until status bit 7 is 1, at most `limit` times. */
uint32_t model_settle(struct model *m, uint8_t *image, size_t image_len, uint16_t sample, uint32_t limit,
                      uint32_t *count);

/* A fresh part, stepped through all samples of a stream. */
struct model_report model_run(uint8_t *image, size_t image_len, const uint8_t *stream, size_t stream_len,
                              uint8_t *answers, size_t answers_len, uint32_t part, uint32_t straps,
                              struct model_times times);

/* Which part of the image, or of a lent page of zeros, shows a block. */
struct model_part model_view(const struct model *m, size_t image_len, const uint8_t *page, size_t page_len,
                             uint32_t block);

/* A sheet names no part: it is one of the M50FW080. */
struct model_sheet model_sheet_read(const uint8_t *sheet, size_t sheet_len);
uint32_t model_sheet_write(uint8_t *buffer, size_t buffer_len, uint32_t straps, struct model_times times);

uint32_t model_status(const struct model *m);
uint32_t model_marks(const struct model *m);

#endif
