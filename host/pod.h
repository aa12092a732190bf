/* The pod: a proved model of two flash parts, the M50FW080 on its Firmware Hub bus and its sister M50LPW080 on the LPC
 * bus, as a C or C++ program calls it. For x86-64 with the System V ABI, in C11 or C++11 and later.
 *
 * A device is a plain record that the caller keeps and hands in; an image is the part's memory, which the caller lends.
 * The library holds nothing of its own between calls, so two devices on two images never meet, in one thread or many.
 * There is no malloc, no file, no clock and no lock behind these functions, and no input that they cannot take: each
 * gives its answer or a numbered refusal.
 *
 * A refusal is the lowest number below that applies (pod_sheet_read alone tests 8 first). Refusals 1 to 9 leave every
 * buffer as it was lent, give back the device that was handed in, and 0 for every other number. Number 10 is given
 * after the stated clocks, which were done.
 *
 * What the caller promises, since nothing here can test it: a pointer and the length beside it name memory that is
 * there for the whole call, so does the device of pod_clock, and no two of them overlap. Where a length is 0 the
 * pointer is not looked at and may be null.
 *
 *     struct pod_powered up = pod_power_up(POD_PART_FWH, 0, 10, 3906, 30);
 *     struct pod_device device = up.device;
 *     struct pod_clocked c = pod_clock(&device, image, POD_IMAGE_BYTES, POD_SAMPLE_IDLE);
 *     if (c.number == POD_DONE && (c.answer & POD_ANSWER_DRIVEN) != 0) { .. c.answer & POD_ANSWER_LINES .. } */
#ifndef POD_H
#define POD_H

#if !defined __x86_64__ || defined __ILP32__ || defined _WIN32 || defined __CYGWIN__
#error "the pod library is for x86-64 with the System V ABI (64-bit pointers)"
#endif

#include <stddef.h>
#include <stdint.h>

/* The face's version: the first number rises where a program has to change or to be compiled anew, the second where
 * something is added. */
#define POD_VERSION_MAJOR 2
#define POD_VERSION_MINOR 0

#ifdef __cplusplus
extern "C" {
#endif

/* Lengths in bytes. The longest stream has 65,536 samples. */
enum {
    POD_IMAGE_BYTES = 1048576,
    POD_BLOCKS = 16,
    POD_BLOCK_BYTES = 65536,
    POD_SLICES = 256,
    POD_SLICE_BYTES = 256,
    POD_STREAM_BYTES = 131072,
    POD_SHEET_BYTES = 13
};

/* The parts: the M50FW080, and the M50LPW080. */
enum { POD_PART_FWH = 0, POD_PART_LPC = 1 };

/* The ranges of straps (from 0; by the part) and times (microseconds, each from 1), and the clocks of a microsecond. */
enum {
    POD_STRAPS_MOST = 15,    /* of POD_PART_FWH, and so of a bay sheet */
    POD_LPC_STRAPS_MOST = 3, /* of POD_PART_LPC */
    POD_PROGRAM_MOST = 200,
    POD_SLICE_MOST = 39062,
    POD_PAUSE_MOST = 30,
    POD_CLOCKS_PER_MICROSECOND = 33
};

/* The numbered answers. */
enum {
    POD_DONE = 0,
    POD_REFUSED_DEVICE = 1,  /* the device is not sound */
    POD_REFUSED_IMAGE = 2,   /* the image is not POD_IMAGE_BYTES long */
    POD_REFUSED_STRAPS = 3,  /* straps that the part does not allow, or a part that is none of the two */
    POD_REFUSED_TIMES = 4,   /* a time out of its range */
    POD_REFUSED_STREAM = 5,  /* the stream is of odd length or longer than POD_STREAM_BYTES */
    POD_REFUSED_ROOM = 6,    /* a buffer is too short for what goes into it */
    POD_REFUSED_VOLTAGE = 7, /* a sample has voltage class 3 */
    POD_REFUSED_SHEET = 8,   /* the bytes are not laid out as a bay sheet */
    POD_REFUSED_SAMPLE = 9,  /* the sample to settle with has frame line, RP or INIT low */
    POD_STILL_BUSY = 10      /* settle did all `limit` samples, and status bit 7 is still 0 */
};

/* A sample: what the host holds on the pins for one clock. In a stream it is two bytes, the lower one first. */
enum {
    POD_SAMPLE_LINES = 0x000F, /* the four data lines */
    POD_SAMPLE_FRAME = 0x0010, /* the frame line; low begins or breaks off a frame */
    POD_SAMPLE_RP = 0x0020,    /* RP and INIT: either of them low is a reset */
    POD_SAMPLE_INIT = 0x0040,
    POD_SAMPLE_TBL = 0x0080,   /* low protects block 15 */
    POD_SAMPLE_WP = 0x0100,    /* low protects all other blocks */
    POD_SAMPLE_VOLTAGE = 0x0600,
    POD_SAMPLE_FGPI0 = 0x0800,
    POD_SAMPLE_FGPI1 = 0x1000,
    POD_SAMPLE_FGPI2 = 0x2000,
    POD_SAMPLE_FGPI3 = 0x4000,
    POD_SAMPLE_FGPI4 = 0x8000,
    POD_SAMPLE_INPUTS = 0xF800,     /* the five of them; high is 1 */
    POD_SAMPLE_VOLTAGE_SHIFT = 9,   /* a class from 0 to 3 stands so far up, and the inputs as a number so far */
    POD_SAMPLE_INPUTS_SHIFT = 11,
    POD_SAMPLE_IDLE = 0x03FF        /* lines and pins high, voltage normal, inputs low */
};

/* Voltage classes; 3 is refused (POD_REFUSED_VOLTAGE). */
enum { POD_VOLTAGE_LOCKOUT = 0, POD_VOLTAGE_NORMAL = 1, POD_VOLTAGE_TWELVE = 2 };

/* An answer byte: 0 where the part does not drive the lines, else POD_ANSWER_DRIVEN and the nibble that it drives. */
enum { POD_ANSWER_LINES = 0x0F, POD_ANSWER_DRIVEN = 0x10 };

/* The status register; bit 0 is always 0. */
enum {
    POD_STATUS_PROTECTED = 0x02,         /* error: a protected block was to be changed */
    POD_STATUS_PROGRAM_SUSPENDED = 0x04, /* a program is suspended */
    POD_STATUS_VOLTAGE = 0x08,           /* error: too low a voltage for a program or erase */
    POD_STATUS_PROGRAM = 0x10,           /* error of a program; with the next one, an erase was not confirmed */
    POD_STATUS_ERASE = 0x20,             /* error of an erase */
    POD_STATUS_ERASE_SUSPENDED = 0x40,   /* an erase is suspended */
    POD_STATUS_READY = 0x80,             /* nothing runs or pauses */
    POD_STATUS_ERRORS = 0x3A             /* the errors, which stand until they are cleared or the part is reset */
};

/* A lock register: the block is not changed; the register is not changed until a reset; array reads of the block give
 * 00h. */
enum { POD_LOCK_WRITE = 1, POD_LOCK_DOWN = 2, POD_LOCK_READ = 4 };

/* What the numbers in a device stand for. A sound device has no others. */
enum { POD_FRAME_NONE = 0, POD_FRAME_READ = 1, POD_FRAME_WRITE = 2, POD_FRAME_BEGUN = 3 };
enum { POD_OPERATION_NONE = 0, POD_OPERATION_PROGRAM = 1, POD_OPERATION_ERASE = 2 };
enum { POD_STATE_RUNNING = 0, POD_STATE_PAUSING = 1, POD_STATE_SUSPENDED = 2 };
enum { POD_MODE_ARRAY = 0, POD_MODE_STATUS = 1, POD_MODE_SIGNATURE = 2 };
enum { POD_SETUP_NONE = 0, POD_SETUP_PROGRAM = 1, POD_SETUP_ERASE = 2 };

/* Three times in microseconds. */
struct pod_times {
    uint16_t program;
    uint16_t slice;
    uint16_t pause;
};

/* The frame in progress. kind: POD_FRAME_.., BEGUN being an LPC frame at clock 1, whose direction is not known yet;
 * clock: the last clock of it that is done, from 1; address: of 28 bits on FWH, of 32 on LPC. */
struct pod_frame {
    uint8_t kind;
    uint8_t clock;
    uint8_t byte;
    uint32_t address;
};

/* An operation. kind: POD_OPERATION_..; state: POD_STATE_..; slices: those that an erase has still to fill; left:
 * clocks left, of a program's time or of the slice that an erase is at; pause: clocks left of a pending pause; times:
 * its own copy, taken when it was accepted. */
struct pod_operation {
    uint8_t kind;
    uint8_t state;
    uint8_t data;
    uint32_t address;
    uint32_t slices;
    uint32_t left;
    uint32_t pause;
    struct pod_times times;
};

/* mode: POD_MODE_..; errors: the kept bits of POD_STATUS_ERRORS; setup: POD_SETUP_..; marks: bit b for a spoiled block
 * b; inner: a program inside the suspended erase that `outer` then is. */
struct pod_controller {
    uint8_t mode;
    uint8_t errors;
    uint8_t setup;
    uint16_t marks;
    struct pod_operation outer;
    struct pod_operation inner;
};

/* The whole part but its memory, and which of the two it was powered up as. It holds numbers only: any 96 bytes at all
 * may be handed in, and every call that takes a device tests whether it is sound. */
struct pod_device {
    uint8_t straps;
    uint8_t locks[16];
    uint8_t part; /* POD_PART_.. */
    struct pod_times times;
    struct pod_frame frame;
    struct pod_controller controller;
};

struct pod_powered { uint32_t number; struct pod_device device; };
struct pod_stepped { uint32_t number, answer; struct pod_device device; };
struct pod_clocked { uint32_t number, answer; };
struct pod_settled { uint32_t number, count; struct pod_device device; };
struct pod_report  { uint32_t number, samples, status, marks; };
struct pod_sheet   { uint32_t number, straps, program, slice, pause; };
struct pod_part    { uint32_t from, start, length; };

/* Where the bytes of a pod_part are to be found; POD_FROM_FRONT shows none, its start and length are 0. */
enum { POD_FROM_FRONT = 0, POD_FROM_IMAGE = 1, POD_FROM_PAGE = 2 };

/* A device fresh from power-up: which part, straps as a number (on LPC bit 1 is ID1 and bit 0 is ID0), times in
 * microseconds. Refusals 3, 4; the device is then the FWH one with straps 0 and times 10, 3906 and 30. */
struct pod_powered pod_power_up(uint32_t part, uint32_t straps, uint32_t program, uint32_t slice, uint32_t pause);

/* The device with other times (microseconds), which hold for operations accepted from now on; those in progress keep
 * their own. Refusals 1, 4. */
struct pod_powered pod_set_times(struct pod_device device, uint32_t program, uint32_t slice, uint32_t pause);

/* One clock: the device after it, and the answer byte. Changes the image where the clock stores or fills. Refusals
 * 1, 2, 7. */
struct pod_stepped pod_step(struct pod_device device, uint8_t *image, size_t image_len, uint16_t sample);

/* The same on a device that the caller keeps, which is changed in place. Refusals 1, 2, 7; every byte of the device is
 * then as it was, padding included. Where the step is done, the padding is unspecified. */
struct pod_clocked pod_clock(struct pod_device *device, uint8_t *image, size_t image_len, uint16_t sample);

/* Repeats one idle sample until status bit 7 is 1, at most `limit` times; count is how often, 0 where the part is ready
 * already. Changes the image as those clocks do; a frame in progress takes the samples as its next clocks. Refusals 1,
 * 2, 7, 9, and 10 where `limit` samples were done and the part is still busy: device, image and count are then as they
 * left them. */
struct pod_settled pod_settle(struct pod_device device, uint8_t *image, size_t image_len,
                              uint16_t sample, uint32_t limit);

/* Powers up and does all samples of a stream. Gives samples done, the status register and the spoiled marks; changes
 * the image, and one answer byte for each sample (those behind are left). Refusals 2, 3, 4, 5, 6 (answers shorter than
 * the samples), 7. */
struct pod_report  pod_run(uint8_t *image, size_t image_len, const uint8_t *stream, size_t stream_len,
                           uint8_t *answers, size_t answers_len,
                           uint32_t part, uint32_t straps, uint32_t program, uint32_t slice, uint32_t pause);

/* A bay sheet's straps and times (microseconds); a sheet says no part, and is FWH's. Its bytes are 01 01 00 and the
 * straps, then 02 06 00 and program, slice and pause, two bytes each with the lower one first. Changes nothing.
 * Refusals 8, 3, 4, tested in this order. */
struct pod_sheet   pod_sheet_read(const uint8_t *sheet, size_t sheet_len);

/* Writes a bay sheet into the first POD_SHEET_BYTES of a buffer and leaves the rest. Gives the number alone: refusals
 * 3, 4, 6. */
uint32_t           pod_sheet_write(uint8_t *buffer, size_t buffer_len,
                                   uint32_t straps, uint32_t program, uint32_t slice, uint32_t pause);

/* Where to look at a block: in the image, or in a lent page of POD_BLOCK_BYTES zeros where its lock register locks
 * reading. `length` bytes from `start`. Changes and refuses nothing: an unsound device, a wrong length, a block above
 * 15 and a page that is not all zeros give the empty front of the page. */
struct pod_part    pod_view(struct pod_device device, const uint8_t *image, size_t image_len,
                            const uint8_t *page, size_t page_len, uint32_t block);

/* The status register (POD_STATUS_..), and the spoiled blocks (bit b for block b). Both change and refuse nothing; an
 * unsound device has 0, which is also the status of a busy part. */
uint32_t           pod_status(struct pod_device device);
uint32_t           pod_marks(struct pod_device device);

/* What program and archive have to agree on, byte by byte. */
#ifdef __cplusplus
#define POD_ASSERT(fact, name) static_assert(fact, name)
#else
#define POD_ASSERT(fact, name) _Static_assert(fact, name)
#endif
#define POD_SIZE(type, bytes) POD_ASSERT(sizeof(type) == (bytes), "size of " #type)
#define POD_OFFSET(type, member, at) POD_ASSERT(offsetof(type, member) == (at), "place of " #type "." #member)

POD_SIZE(size_t, 8);

POD_SIZE(struct pod_times, 6);
POD_OFFSET(struct pod_times, program, 0);
POD_OFFSET(struct pod_times, slice, 2);
POD_OFFSET(struct pod_times, pause, 4);

POD_SIZE(struct pod_frame, 8);
POD_OFFSET(struct pod_frame, kind, 0);
POD_OFFSET(struct pod_frame, clock, 1);
POD_OFFSET(struct pod_frame, byte, 2);
POD_OFFSET(struct pod_frame, address, 4);

POD_SIZE(struct pod_operation, 28);
POD_OFFSET(struct pod_operation, kind, 0);
POD_OFFSET(struct pod_operation, state, 1);
POD_OFFSET(struct pod_operation, data, 2);
POD_OFFSET(struct pod_operation, address, 4);
POD_OFFSET(struct pod_operation, slices, 8);
POD_OFFSET(struct pod_operation, left, 12);
POD_OFFSET(struct pod_operation, pause, 16);
POD_OFFSET(struct pod_operation, times, 20);

POD_SIZE(struct pod_controller, 64);
POD_OFFSET(struct pod_controller, mode, 0);
POD_OFFSET(struct pod_controller, errors, 1);
POD_OFFSET(struct pod_controller, setup, 2);
POD_OFFSET(struct pod_controller, marks, 4);
POD_OFFSET(struct pod_controller, outer, 8);
POD_OFFSET(struct pod_controller, inner, 36);

POD_SIZE(struct pod_device, 96);
POD_OFFSET(struct pod_device, straps, 0);
POD_OFFSET(struct pod_device, locks, 1);
POD_OFFSET(struct pod_device, part, 17);
POD_OFFSET(struct pod_device, times, 18);
POD_OFFSET(struct pod_device, frame, 24);
POD_OFFSET(struct pod_device, controller, 32);

POD_SIZE(struct pod_powered, 100);
POD_OFFSET(struct pod_powered, number, 0);
POD_OFFSET(struct pod_powered, device, 4);
POD_SIZE(struct pod_stepped, 104);
POD_OFFSET(struct pod_stepped, number, 0);
POD_OFFSET(struct pod_stepped, answer, 4);
POD_OFFSET(struct pod_stepped, device, 8);
POD_SIZE(struct pod_clocked, 8);
POD_OFFSET(struct pod_clocked, number, 0);
POD_OFFSET(struct pod_clocked, answer, 4);
POD_SIZE(struct pod_settled, 104);
POD_OFFSET(struct pod_settled, number, 0);
POD_OFFSET(struct pod_settled, count, 4);
POD_OFFSET(struct pod_settled, device, 8);
POD_SIZE(struct pod_report, 16);
POD_OFFSET(struct pod_report, number, 0);
POD_OFFSET(struct pod_report, samples, 4);
POD_OFFSET(struct pod_report, status, 8);
POD_OFFSET(struct pod_report, marks, 12);
POD_SIZE(struct pod_sheet, 20);
POD_OFFSET(struct pod_sheet, number, 0);
POD_OFFSET(struct pod_sheet, straps, 4);
POD_OFFSET(struct pod_sheet, program, 8);
POD_OFFSET(struct pod_sheet, slice, 12);
POD_OFFSET(struct pod_sheet, pause, 16);
POD_SIZE(struct pod_part, 12);
POD_OFFSET(struct pod_part, from, 0);
POD_OFFSET(struct pod_part, start, 4);
POD_OFFSET(struct pod_part, length, 8);

#undef POD_OFFSET
#undef POD_SIZE
#undef POD_ASSERT

#ifdef __cplusplus
}
#endif

#endif
