/* One message at a time, on the standard error or into a lent room. */
#include "bay/trouble.h"

#include <errno.h>
#include <limits.h>
#include <poll.h>
#include <signal.h>
#include <stdarg.h>
#include <stdbool.h>
#include <stdio.h>
#include <string.h>
#include <unistd.h>

/* How many milliseconds a reader may keep bay waiting, and room for the words and as many names as a message has. */
enum { READER_WAIT = 100, MESSAGE_ROOM = 6 * PATH_MAX };

static const char *speaker = "bay";
static char *kept;
static size_t kept_room;

void trouble_speaker(const char *name)
{
    speaker = name;
}

void trouble_into(char *words, size_t room)
{
    kept = words;
    kept_room = room;
}

void tell(int place, const char *words, size_t length)
{
    struct pollfd out = { .fd = place, .events = POLLOUT };
    struct sigaction ignored;
    struct sigaction before;
    memset(&ignored, 0, sizeof ignored);
    ignored.sa_handler = SIG_IGN;
    bool quiet = sigaction(SIGPIPE, &ignored, &before) == 0;
    while (length > 0) {
        /* a pipe that can be written has room for so much */
        size_t part = length < PIPE_BUF ? length : PIPE_BUF;
        int ready = poll(&out, 1, READER_WAIT);
        ssize_t done = ready > 0 ? write(place, words, part) : ready;
        if (done == 0 || (done < 0 && errno != EINTR)) {
            break;
        }
        words += done > 0 ? done : 0;
        length -= done > 0 ? (size_t)done : 0;
    }
    if (quiet) {
        (void)sigaction(SIGPIPE, &before, NULL);
    }
}

int trouble(int status, const char *form, ...)
{
    char words[MESSAGE_ROOM];
    int front = snprintf(words, sizeof words, "%s: ", speaker);
    size_t length = front < 0 ? 0 : (size_t)front;
    va_list rest;
    va_start(rest, form);
    int back = vsnprintf(words + length, sizeof words - length - 1, form, rest);
    va_end(rest);
    if (back > 0) {
        length = strlen(words);
    }
    words[length++] = '\n';
    if (kept != NULL) {
        size_t most = length < kept_room ? length : kept_room - 1;
        memcpy(kept, words, most);
        kept[most] = '\0';
    } else {
        tell(STDERR_FILENO, words, length);
    }
    return status;
}
