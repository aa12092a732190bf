/* The rig of the clock's tests: one device stepped by value and its twin stepped in place, which must agree on all, and
 * the frames that are laid on their bus. */
#ifndef TEST_RIG_H
#define TEST_RIG_H

#include "bus/frames.h"
#include "pod.h"
#include "test/lent.h"

#include <stddef.h>
#include <stdint.h>

/* now: the device stepped by value, on `image`; twin: the one in place, lent with guards, on an image of its own. */
struct rig {
    struct pod_device now;
    struct pod_device *twin;
    struct lent image, twin_image, twin_device;
};
extern struct rig rig;

/* The images hold the same random bytes; each has one byte more than the part, so that it can be lent one off. */
void rig_open(void);
void rig_close(void);

/* Both devices become this one, or one powered up as the part that is tested. */
void rig_set(struct pod_device device);
void rig_power_up(uint32_t program, uint32_t slice, uint32_t pause);

/* One clock of both; gives the answer. */
uint32_t rig_clock(uint16_t sample);

/* Some clocks on which nothing may be driven: of any sample, and of an idle one. */
void rig_clock_dark(uint16_t sample, uint32_t clocks);
void rig_idle(uint32_t clocks);

/* Clocks `first` to `last` of a frame laid as samples, each to be answered as `frame` is; null where it is dropped. */
void rig_play(const uint16_t *samples, unsigned first, unsigned last, const struct frame *frame);

/* The same for a frame laid over an idle sample. */
void rig_play_frame(const struct frame *frame, uint16_t idle, unsigned first, unsigned last);

/* A whole read over an idle sample, or over that of pod.h; gives the byte. */
uint32_t rig_read_over(uint16_t idle, uint32_t address);
uint32_t rig_read(uint32_t address);

/* The first clocks of a write, where the frame is left; all of them; and those up to the one on which it acts, so that
 * the first clock of an operation that it starts is the next sample. */
void rig_begin_write(uint32_t address, uint32_t data, unsigned clocks);
void rig_write_over(uint16_t idle, uint32_t address, uint32_t data);
void rig_write(uint32_t address, uint32_t data);
void rig_write_and_act(uint32_t address, uint32_t data);

/* A low frame line that begins no frame. */
void rig_drop_frame(void);

/* Checks that both images hold what they are to hold; where not, they are put right for what follows. */
void rig_images_stand(void);

/* Checks that both hold the same, whatever that is. */
void rig_images_agree(void);

/* Puts bytes into both images; says what both are to hold from now on; checks one byte of both. */
void rig_put(uint32_t place, uint32_t count, uint32_t value);
void rig_will_hold(uint32_t place, uint32_t count, uint32_t value);
void rig_expect_byte(uint32_t place, uint32_t value, const char *when);

#endif
