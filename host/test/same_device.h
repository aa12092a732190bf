/* Whether two devices hold the same numbers; the bytes between their fields hold none and do not count. */
#ifndef TEST_SAME_DEVICE_H
#define TEST_SAME_DEVICE_H

#include "pod.h"

#include <stdbool.h>

bool same_device(const struct pod_device *x, const struct pod_device *y);

#endif
