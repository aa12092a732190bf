/* What a record means to the model, so that the two can go on from any sound device. */
#ifndef DIFF_MEANT_H
#define DIFF_MEANT_H

#include "model.h"
#include "pod.h"

/* The model in the state of a sound device. */
struct model model_meant(const struct pod_device *device);

#endif
