/* Waits that come close to the end of what runs. */
#include "diff/waits.h"

#include "bus/frames.h"
#include "diff/condition.h"
#include "diff/random.h"
#include "diff/settle.h"
#include "diff/sides.h"
#include "diff/trace.h"
#include "diff/traffic.h"

uint32_t distance(void)
{
    if (!is_busy(&model)) {
        return 1 + rnd(20);
    }
    if (model.condition == PAUSING && !one_in(3)) {
        return model.pause_left;
    }
    return model.erasing && one_in(3) ? model.erase.left : operation_left(&model);
}

void wait_for(uint32_t clocks)
{
    if (clocks <= trace.patience) {
        idle(clocks);
    } else if (!trace.runnable && clocks < trace.settle_clocks) {
        settle_with(next_sample(FRAME_TURNAROUND), clocks, clocks);
    }
}

void approach(uint32_t offset)
{
    const uint32_t end = distance();
    const uint32_t aim = end + 3 - rnd(7);
    if (aim > offset && aim <= UINT32_MAX - 3) {
        wait_for(aim - offset);
    }
}
