/* The client's end of a line. */
#include "fuzz/client.h"

#include <errno.h>
#include <fcntl.h>
#include <poll.h>
#include <sys/socket.h>
#include <sys/types.h>
#include <unistd.h>

enum { WAIT = 12000, LISTEN = 65536 };

enum manner client_manner(uint64_t choice)
{
    return (enum manner)(choice / 1024 % MANNERS);
}

/* Listens to what is there. False where the server has ended the line. */
static bool listen_to(int line)
{
    static uint8_t answers[LISTEN];
    ssize_t got = recv(line, answers, sizeof answers, 0);
    return got > 0 || (got < 0 && (errno == EAGAIN || errno == EINTR));
}

/* Says more of it. False where it cannot be said. */
static bool say_more(int line, const struct input *input, size_t *said)
{
    ssize_t done = send(line, input->at + *said, input->length - *said, MSG_NOSIGNAL);
    if (done > 0) {
        *said += (size_t)done;
    }
    return done >= 0 || errno == EAGAIN || errno == EINTR;
}

void client_speak(int line, const struct input *input, enum manner manner)
{
    size_t said = 0;
    bool over = false;
    bool holds = fcntl(line, F_SETFL, O_NONBLOCK) == 0;
    while (holds) {
        if (said == input->length && !over) {
            over = true;
            if (manner == MANNER_DEAF || (manner != MANNER_SILENT && shutdown(line, SHUT_WR) != 0)) {
                break;
            }
        }
        struct pollfd ready = { .fd = line, .events = (short)(said < input->length ? POLLIN | POLLOUT : POLLIN) };
        holds = poll(&ready, 1, WAIT) > 0;
        if (holds && (ready.revents & POLLOUT) != 0) {
            holds = say_more(line, input, &said);
        }
        if (holds && (ready.revents & ~POLLOUT) != 0) {
            holds = listen_to(line);
        }
    }
    (void)close(line);
}
