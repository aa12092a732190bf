/* Reads, writes and commands somewhere, and what begins an operation. */
#ifndef DIFF_OPERATIONS_H
#define DIFF_OPERATIONS_H

#include <stdint.h>

/* A byte written to the array, for the controller to take as a command. */
void command(uint8_t byte);

void read_something(void);
void write_register(void);

/* All that begins one in a block, mostly with the pins and the lock register that let it. */
void begin_program(uint32_t block);
void begin_erase(uint32_t block);

#endif
