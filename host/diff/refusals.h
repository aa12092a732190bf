/* Calls that must be refused. */
#ifndef DIFF_REFUSALS_H
#define DIFF_REFUSALS_H

#include "pod.h"

/* Steps and settles on the present device with a wrong length or sample: the model says which are refused. */
void try_refusals(void);

/* A device that is not sound, by what is wrong about it: every call that takes one must refuse it. */
void expect_refused(const char *what, const struct pod_device *device);

#endif
