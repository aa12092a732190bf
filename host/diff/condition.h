/* What the model is doing, read off its fields. */
#ifndef DIFF_CONDITION_H
#define DIFF_CONDITION_H

#include "model.h"
#include "pod.h"

#include <stdbool.h>
#include <stdint.h>

/* An operation runs or pauses: status bit 7 is 0. */
static inline bool is_busy(const struct model *m)
{
    return m->condition == RUNNING || m->condition == PAUSING || m->condition == PROGRAM_INSIDE;
}

/* The operation that is there, if any, is an erase. With a program inside, that program counts. */
static inline bool is_erase(const struct model *m)
{
    return m->condition == ERASE_SUSPENDED || (m->condition != PROGRAM_SUSPENDED && m->erasing);
}

/* The slices that an erase fills after the one it is at. */
static inline uint32_t slices_after(const struct model *m)
{
    return (POD_BLOCK_BYTES - 1 - m->erase.next % POD_BLOCK_BYTES) / POD_SLICE_BYTES;
}

/* Clocks left of the operation that runs or pauses: its last one is the sample of that number from now. */
static inline uint32_t operation_left(const struct model *m)
{
    return m->erasing ? slices_after(m) * m->erase.slice_clocks + m->erase.left : m->program.left;
}

#endif
