/* Lending buffers and looking at them afterwards. */
#include "test/lent.h"

#include "test/any.h"
#include "test/check.h"

#include <stdio.h>
#include <stdlib.h>
#include <string.h>

enum { GUARD_BYTES = 64, GUARD = 0xC3 };

struct lent lent_new(size_t length)
{
    const size_t guarded = GUARD_BYTES + length + GUARD_BYTES;
    uint8_t *whole = malloc(guarded);
    uint8_t *wanted = malloc(length + 1);
    if (whole == NULL || wanted == NULL) {
        fprintf(stderr, "no memory for a buffer of %zu bytes\n", length);
        exit(EXIT_FAILURE);
    }
    memset(whole, GUARD, guarded);
    memset(wanted, GUARD, length + 1);
    return (struct lent){ .bytes = whole + GUARD_BYTES, .wanted = wanted, .length = length };
}

void lent_free(struct lent *lent)
{
    free(lent->bytes - GUARD_BYTES);
    free(lent->wanted);
    *lent = (struct lent){ .bytes = NULL, .wanted = NULL, .length = 0 };
}

void lent_put(const struct lent *lent, size_t at, uint8_t value)
{
    lent->bytes[at] = lent->wanted[at] = value;
}

void lent_fill(const struct lent *lent, size_t from, size_t count, uint8_t value)
{
    memset(lent->bytes + from, value, count);
    memset(lent->wanted + from, value, count);
}

void lent_fill_with_any(const struct lent *lent)
{
    for (size_t i = 0; i < lent->length; i++) {
        lent_put(lent, i, (uint8_t)any_below(256));
    }
}

bool lent_is_guarded(const struct lent *lent, const char *what)
{
    const uint8_t *before = lent->bytes - GUARD_BYTES, *after = lent->bytes + lent->length;
    for (size_t i = 0; i < GUARD_BYTES; i++) {
        if (before[i] != GUARD) {
            return expect(GUARD, before[i], "guard byte %zu before the %s", GUARD_BYTES - i, what);
        }
        if (after[i] != GUARD) {
            return expect(GUARD, after[i], "guard byte %zu after the %s", i, what);
        }
    }
    return true;
}

bool lent_stands(const struct lent *lent, const char *what)
{
    if (memcmp(lent->bytes, lent->wanted, lent->length) != 0) {
        size_t at = 0;
        while (lent->bytes[at] == lent->wanted[at]) {
            at++;
        }
        return expect(lent->wanted[at], lent->bytes[at], "byte %zX of the %s", at, what);
    }
    return lent_is_guarded(lent, what);
}
