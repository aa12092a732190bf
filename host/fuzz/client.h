/* A client that says what it has to say over a line, and does not always listen. */
#ifndef FUZZ_CLIENT_H
#define FUZZ_CLIENT_H

#include "fuzz/spoil.h"

/* Most clients listen to the end and say that they have no more. One goes away once it has spoken, one falls silent. */
enum manner { MANNER_DEAF = 14, MANNER_SILENT = 15, MANNERS = 16 };

/* The manner of the client that brings an input, from the input's choice. */
enum manner client_manner(uint64_t choice);

/* Speaks and listens until the server ends the line, or for some seconds; closes the line. */
void client_speak(int line, const struct input *input, enum manner manner);

#endif
