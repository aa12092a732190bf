/* Whether what bay made of an input is what the input says. */
#ifndef FUZZ_AGREE_H
#define FUZZ_AGREE_H

#include "fuzz/spoil.h"

/* Whether a sheet that was written from words holds all that they say, and they say nothing else. */
bool words_agree(const struct input *words, const char *sheet);

#endif
