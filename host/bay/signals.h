/* The signals by which someone, or a clock, ends a program, taken over for a while or held back for a moment. */
#ifndef BAY_SIGNALS_H
#define BAY_SIGNALS_H

#include <signal.h>
#include <stdbool.h>

enum { SIGNALS = 5 };

/* Which of them were taken. */
struct signals {
    bool taken[SIGNALS];
};

typedef void signal_handler(int number);

/* Takes SIGINT, SIGTERM, SIGHUP, SIGPIPE and SIGALRM over, but for those that are ignored, since whoever started bay so
 * meant it, and those that have been taken before. While the handler runs, all of them are held back. */
void signals_take(struct signals *signals, signal_handler *handler, int flags);

/* Gives back what was taken. */
void signals_give_back(const struct signals *signals);

/* Ends the program by this signal, as its sender meant. A handler may call it. */
void signals_end_by(int number);

/* What was held back before. */
struct held {
    sigset_t before;
};

/* Holds the same signals back: what is done until they are let through is not interrupted by them. */
void signals_hold(struct held *held);
void signals_let(const struct held *held);

#endif
