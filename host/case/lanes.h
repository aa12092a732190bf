/* A scenario carried out: stepped by value, stepped in place and run. All agree, with each other and with the text. */
#ifndef CASE_LANES_H
#define CASE_LANES_H

#include "case/judge.h"
#include "case/scenario.h"

/* One way of stepping. */
struct lane {
    bool in_place;
    struct pod_device device;
    uint8_t image[POD_IMAGE_BYTES + SPARE];
    int answers[SAMPLES_MOST]; /* SCRIPT_UNCHECKED where a settle took the sample in */
};

void lanes_carry_out(const struct scenario *scenario, struct judge *judge);

#endif
