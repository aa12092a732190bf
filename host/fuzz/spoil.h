/* Inputs and what is done to them: every change is drawn from a number, so that it can be made again. */
#ifndef FUZZ_SPOIL_H
#define FUZZ_SPOIL_H

#include <stdbool.h>
#include <stddef.h>
#include <stdint.h>

/* The longest input is somewhat longer than the longest stream; a piece is at most so long. */
enum { INPUT_MOST = 160 * 1024, PIECE_MOST = 256 };

struct draws {
    uint64_t state;
};
uint64_t draw(struct draws *draws);

/* A number below the bound, 0 where the bound is 0. */
size_t draw_below(struct draws *draws, size_t bound);
bool draw_one_in(struct draws *draws, size_t bound);

/* A number that is at some border more often than not. */
uint32_t draw_border(struct draws *draws);

struct input {
    size_t length;
    uint8_t at[INPUT_MOST];
};

/* A number that depends on every byte of the input. */
uint64_t input_sum(const struct input *input);

/* How a kind of input is spoiled. group: how many of the bytes that are left belong together, at least one of them.
 * text: it is read as words and numbers. piece: makes a part of such an input that is as it should be, or is null. */
struct style {
    size_t (*group)(const uint8_t *at, size_t left);
    bool text;
    size_t (*piece)(struct draws *draws, uint8_t *room);
};

/* Spoils the input in a few places; `other` is a second seed of its kind. */
void spoil(struct input *input, const struct input *other, const struct style *style, struct draws *draws);

#endif
