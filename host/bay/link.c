/* The line to one client. */
#include "bay/link.h"

#include <errno.h>
#include <limits.h>
#include <poll.h>
#include <string.h>
#include <sys/socket.h>
#include <sys/types.h>
#include <time.h>

const char link_over[] = "time is over";
const char link_ended[] = "the server is to end";
const char link_broke[] = "the line broke";

int64_t milliseconds(void)
{
    struct timespec now = { 0, 0 };
    (void)clock_gettime(CLOCK_MONOTONIC, &now);
    return (int64_t)now.tv_sec * 1000 + now.tv_nsec / 1000000;
}

const char *wait_for(const struct wait *wait)
{
    for (;;) {
        int64_t left = wait->until - milliseconds();
        if (left <= 0) {
            return link_over;
        }
        struct pollfd files[2] = {
            { .fd = wait->file, .events = wait->to_write ? POLLOUT : POLLIN },
            { .fd = wait->stop, .events = POLLIN },
        };
        int ready = poll(files, 2, left < INT_MAX ? (int)left : INT_MAX);
        if (ready > 0 && files[1].revents != 0) {
            return link_ended;
        }
        if (ready > 0) {
            return NULL;
        }
        if (ready == 0) {
            return link_over;
        }
        if (errno != EINTR) {
            return link_broke;
        }
    }
}

static bool end(struct link *link, const char *why)
{
    if (link->why == NULL) {
        link->why = why;
    }
    return false;
}

/* Waits for the client within its silence and the server's time. */
static bool wait_client(struct link *link, bool to_write)
{
    int64_t silence = milliseconds() + link->idle;
    bool silent_first = silence < link->until;
    const char *why = wait_for(&(struct wait){ .file = link->client,
                                               .stop = link->stop,
                                               .until = silent_first ? silence : link->until,
                                               .to_write = to_write });
    if (why == link_over && silent_first) {
        why = "the client was silent too long";
    }
    return why == NULL ? true : end(link, why);
}

bool link_flush(struct link *link)
{
    size_t sent = 0;
    while (sent < link->out_end) {
        ssize_t done = send(link->client, link->out + sent, link->out_end - sent, MSG_NOSIGNAL);
        if (done >= 0) {
            sent += (size_t)done;
        } else if (errno == EAGAIN) {
            if (!wait_client(link, true)) {
                return false;
            }
        } else if (errno != EINTR) {
            return end(link, "the client went away");
        }
    }
    link->out_end = 0;
    return true;
}

bool link_give(struct link *link, const uint8_t *from, size_t length)
{
    while (length > 0) {
        /* the wait is also where a client that takes long answers as fast as they come meets the end of the server */
        if (link->out_end == LINK_ROOM && !(wait_client(link, true) && link_flush(link))) {
            return false;
        }
        size_t part = LINK_ROOM - link->out_end;
        part = part < length ? part : length;
        memcpy(link->out + link->out_end, from, part);
        link->out_end += part;
        from += part;
        length -= part;
    }
    return link->why == NULL;
}

/* Gets more bytes from the client, which has been given all its answers by then. */
static bool refill(struct link *link)
{
    if (!link_flush(link) || !wait_client(link, false)) {
        return false;
    }
    ssize_t got = recv(link->client, link->in, LINK_ROOM, 0);
    if (got == 0) {
        return end(link, "the client closed the line");
    }
    if (got < 0 && errno != EINTR && errno != EAGAIN) {
        return end(link, "the client went away");
    }
    link->in_at = 0;
    link->in_end = got > 0 ? (size_t)got : 0;
    return true;
}

bool link_take(struct link *link, uint8_t *to, size_t length)
{
    while (length > 0) {
        if (link->in_at == link->in_end && !refill(link)) {
            return false;
        }
        size_t part = link->in_end - link->in_at;
        part = part < length ? part : length;
        memcpy(to, link->in + link->in_at, part);
        link->in_at += part;
        to += part;
        length -= part;
    }
    return true;
}
