/* Counting checks and printing those that do not hold. */
#include "case/judge.h"

#include <stdarg.h>
#include <stdio.h>

void judge_begin(struct judge *judge, const char *path)
{
    judge->path = path;
    judge->failed = false;
}

void judge_fail(struct judge *judge, unsigned line, const char *form, ...)
{
    va_list rest;
    printf("%s:%u: ", judge->path, line);
    va_start(rest, form);
    vprintf(form, rest);
    va_end(rest);
    printf("\n");
    judge->failed = true;
}

bool judge_same(struct judge *judge, unsigned line, const char *what, uint32_t expected, uint32_t found)
{
    judge->checks++;
    if (expected == found) {
        return true;
    }
    judge_fail(judge, line, "%s: expected %Xh (%u), found %Xh (%u)", what, (unsigned)expected, (unsigned)expected,
               (unsigned)found, (unsigned)found);
    return false;
}

void judge_holds(struct judge *judge, unsigned line, bool holds, const char *expected, const char *found)
{
    judge->checks++;
    if (!holds) {
        judge_fail(judge, line, "expected %s, found %s", expected, found);
    }
}

void judge_unwritten(struct judge *judge, unsigned line, const uint8_t *bytes, size_t length)
{
    judge->checks++;
    for (size_t i = 0; i < length; i++) {
        if (bytes[i] != UNWRITTEN) {
            judge_fail(judge, line, "expected %zu bytes unwritten, found %02Xh in byte %zu", length, bytes[i], i);
            return;
        }
    }
}
