/* Checks of a whole device beside the one that it is to be. */
#ifndef TEST_COMPARE_H
#define TEST_COMPARE_H

#include "pod.h"

#include <stdbool.h>

/* Checks every field. What lies between the fields is nobody's. */
bool expect_device(const struct pod_device *wanted, const struct pod_device *found, const char *what);

/* Checks what the two mean, and not the fields of what is absent. */
bool expect_meaning(const struct pod_device *wanted, const struct pod_device *found, const char *what);

#endif
