/* A run as a waveform: a Value Change Dump that GTKWave and sigrok open. */
#ifndef BAY_VCD_H
#define BAY_VCD_H

#include "bay/text.h"
#include "bus/pins.h"

#include <stdint.h>

enum { VCD_WIRES = 24 };

/* levels: each wire's last sign, '0', '1' or 'z'. */
struct vcd {
    struct text text;
    char levels[VCD_WIRES];
    uint64_t clock;
};

void vcd_begin(struct vcd *vcd);

/* Adds one clock, with the status register as it is after it. */
void vcd_add(struct vcd *vcd, const struct seen *seen, uint32_t status);
void vcd_end(struct vcd *vcd);

#endif
