/* A line to one client: bytes in and out, bounded in time, and ended at once when the server is to end. */
#ifndef BAY_LINK_H
#define BAY_LINK_H

#include <stdbool.h>
#include <stddef.h>
#include <stdint.h>

enum { LINK_ROOM = 4096 };

/* stop: readable once the server is to end. idle: milliseconds that the client may be silent. until: when the server's
 * time is over. why: how the line ended, null while it holds. */
struct link {
    int client;
    int stop;
    int64_t idle;
    int64_t until;
    const char *why;
    size_t in_at;
    size_t in_end;
    size_t out_end;
    uint8_t in[LINK_ROOM];
    uint8_t out[LINK_ROOM];
};

/* Milliseconds on a clock that only goes forward. */
int64_t milliseconds(void);

/* Waits until the file can be read (or written), the time is over or the server is to end. Gives null where it can,
 * else why not. A file of -1 is none. */
struct wait {
    int file;
    int stop;
    int64_t until;
    bool to_write;
};
const char *wait_for(const struct wait *wait);

/* Takes so many bytes from the client, after everything given to it has left. False where the line has ended. */
bool link_take(struct link *link, uint8_t *to, size_t length);

/* Gives bytes to the client, in time. False where the line has ended. */
bool link_give(struct link *link, const uint8_t *from, size_t length);
bool link_flush(struct link *link);

/* Why a wait or a line ended, where a caller must tell them apart. */
extern const char link_over[];   /* the server's time is over */
extern const char link_ended[];  /* the server is to end */
extern const char link_broke[];  /* the system failed to wait; errno says why */

#endif
