/* Counting groups of checks and telling their faults. */
#include "test/check.h"

#include <stdarg.h>
#include <stddef.h>
#include <stdio.h>
#include <stdlib.h>

enum { SHOWN = 5 /* faults of one group that are told in full */, NAME_ROOM = 160, WHAT_ROOM = 200 };

static struct {
    bool open;
    const char *about;
    char group[NAME_ROOM];
    unsigned long passed, failed, faults;
} count;

static void close_group(void)
{
    if (!count.open) {
        return;
    }
    if (count.faults == 0) {
        count.passed++;
    } else {
        count.failed++;
        printf("FAILED %s: %lu faults\n", count.group, count.faults);
    }
    count.open = false;
}

void check_about(const char *about)
{
    count.about = about;
}

void check_group(const char *format, ...)
{
    close_group();
    size_t about = 0;
    if (count.about != NULL) {
        about = (size_t)snprintf(count.group, sizeof count.group, "%s, ", count.about);
    }
    va_list list;
    va_start(list, format);
    vsnprintf(count.group + about, sizeof count.group - about, format, list);
    va_end(list);
    count.open = true;
    count.faults = 0;
}

void fault(const char *format, ...)
{
    if (count.faults++ >= SHOWN) {
        return;
    }
    printf("%s: ", count.group);
    va_list list;
    va_start(list, format);
    vprintf(format, list);
    va_end(list);
    printf("\n");
}

bool expect(uint32_t wanted, uint32_t found, const char *format, ...)
{
    if (found == wanted) {
        return true;
    }
    char what[WHAT_ROOM];
    va_list list;
    va_start(list, format);
    vsnprintf(what, sizeof what, format, list);
    va_end(list);
    fault("%s: expected %u (%Xh), found %u (%Xh)", what, wanted, wanted, found, found);
    return false;
}

int check_end(const char *program)
{
    close_group();
    printf("%s: %lu passed, %lu failed\n", program, count.passed, count.failed);
    return count.failed == 0 && count.passed > 0 ? EXIT_SUCCESS : EXIT_FAILURE;
}
