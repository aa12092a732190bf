/* The traces that the differential test recorded. */
#ifndef SPEED_TRACES_H
#define SPEED_TRACES_H

#include "speed/streams.h"

/* All traces of a file that are of this part, as one row. Ends the program where the file holds none, or anything
 * else. */
struct row traces_read(const char *path, uint32_t part);

#endif
