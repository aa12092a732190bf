/* Buffers that a test lends: bytes between two rows of guard bytes, and a copy of what they are to hold. */
#ifndef TEST_LENT_H
#define TEST_LENT_H

#include <stdbool.h>
#include <stddef.h>
#include <stdint.h>

struct lent {
    uint8_t *bytes;
    uint8_t *wanted;
    size_t length;
};

struct lent lent_new(size_t length);
void lent_free(struct lent *lent);

/* Both the lent bytes and what they are to hold become `value`. */
void lent_put(const struct lent *lent, size_t at, uint8_t value);
void lent_fill(const struct lent *lent, size_t from, size_t count, uint8_t value);
void lent_fill_with_any(const struct lent *lent);

/* Checks the guard bytes alone. */
bool lent_is_guarded(const struct lent *lent, const char *what);

/* Checks that the lent bytes are as they are to be and the guards stand. */
bool lent_stands(const struct lent *lent, const char *what);

#endif
