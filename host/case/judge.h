/* Compares what is expected with what is found, and says where they differ. */
#ifndef CASE_JUDGE_H
#define CASE_JUDGE_H

#include <stdbool.h>
#include <stddef.h>
#include <stdint.h>

/* path, failed: of the file at hand; checks: of all files. */
struct judge {
    const char *path;
    bool failed;
    unsigned long checks;
};

void judge_begin(struct judge *judge, const char *path);

/* The file fails, for a reason that stands at a line of it. */
void judge_fail(struct judge *judge, unsigned line, const char *form, ...) __attribute__((format(printf, 3, 4)));

/* One check: two numbers that have to be the same. */
bool judge_same(struct judge *judge, unsigned line, const char *what, uint32_t expected, uint32_t found);

/* One check: something that has to hold; both outcomes in words. */
void judge_holds(struct judge *judge, unsigned line, bool holds, const char *expected, const char *found);

/* What a buffer is filled with before a call that is to leave it, or a part of it, alone. */
enum { UNWRITTEN = 0xA5 };

/* One check: bytes that are all as they were filled. */
void judge_unwritten(struct judge *judge, unsigned line, const uint8_t *bytes, size_t length);

#endif
