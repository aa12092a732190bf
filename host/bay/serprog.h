/* flashrom's serprog protocol, version 1, for a programmer with one socket, of the Firmware Hub or of the LPC bus. */
#ifndef BAY_SERPROG_H
#define BAY_SERPROG_H

#include "bay/bench.h"
#include "bay/link.h"

#include <stddef.h>
#include <stdint.h>

enum { SERPROG_BUFFER = 32768, SERPROG_WRITE_MOST = 4096, SERPROG_READ_MOST = 65536 };

/* operations: what the client has laid by and not yet had carried out. rest: clocks for which the bus rests before each
 * request that reaches the part. */
struct serprog {
    struct link *link;
    struct bench *bench;
    uint64_t rest;
    uint64_t requests;
    size_t length;
    uint8_t operations[SERPROG_BUFFER];
};

/* Serves the client until its line ends, which link->why then tells. */
void serprog_serve(struct serprog *serprog);

#endif
