/* Numbers that nobody looked for: any at all, and the same ones in every run. */
#ifndef TEST_ANY_H
#define TEST_ANY_H

#include "pod.h"

#include <stdint.h>

uint32_t any_below(uint32_t limit);

/* Any bytes as a device, each below a limit. */
struct pod_device any_device(uint32_t limit);

#endif
