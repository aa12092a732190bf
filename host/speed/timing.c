/* Reading the clock and noting rounds. */
#include "speed/timing.h"

#include "speed/room.h"

#include <time.h>

uint64_t time_now(void)
{
    struct timespec t;
    if (clock_gettime(CLOCK_PROCESS_CPUTIME_ID, &t) != 0) {
        give_up("expected a clock for the time of a process, found none", "");
    }
    return (uint64_t)t.tv_sec * 1000000000u + (uint64_t)t.tv_nsec;
}

void measure_note(struct measure *measure, double spent, uint64_t times)
{
    const double each = spent / (double)times;
    if (measure->spent == 0 || each < measure->best) {
        measure->best = each;
    }
    measure->spent += spent;
}
