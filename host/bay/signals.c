/* Taking signals over, holding them back, and giving them back. */
#include "bay/signals.h"

#include <stddef.h>
#include <string.h>

static const int numbers[SIGNALS] = { SIGINT, SIGTERM, SIGHUP, SIGPIPE, SIGALRM };

static sigset_t all_of_them(void)
{
    sigset_t all;
    (void)sigemptyset(&all);
    for (size_t i = 0; i < SIGNALS; i++) {
        (void)sigaddset(&all, numbers[i]);
    }
    return all;
}

static struct sigaction action(signal_handler *handler, int flags)
{
    struct sigaction action;
    memset(&action, 0, sizeof action);
    action.sa_handler = handler;
    action.sa_flags = flags;
    action.sa_mask = all_of_them();
    return action;
}

void signals_take(struct signals *signals, signal_handler *handler, int flags)
{
    const struct sigaction ours = action(handler, flags);
    for (size_t i = 0; i < SIGNALS; i++) {
        struct sigaction now;
        bool free = sigaction(numbers[i], NULL, &now) == 0 && now.sa_handler == SIG_DFL;
        signals->taken[i] = free && sigaction(numbers[i], &ours, NULL) == 0;
    }
}

void signals_give_back(const struct signals *signals)
{
    const struct sigaction usual = action(SIG_DFL, 0);
    for (size_t i = 0; i < SIGNALS; i++) {
        if (signals->taken[i]) {
            (void)sigaction(numbers[i], &usual, NULL);
        }
    }
}

void signals_end_by(int number)
{
    const struct sigaction usual = action(SIG_DFL, 0);
    sigset_t one;
    (void)sigemptyset(&one);
    (void)sigaddset(&one, number);
    (void)sigaction(number, &usual, NULL);
    (void)sigprocmask(SIG_UNBLOCK, &one, NULL);
    (void)raise(number);
}

void signals_hold(struct held *held)
{
    const sigset_t ours = all_of_them();
    (void)sigprocmask(SIG_BLOCK, &ours, &held->before);
}

void signals_let(const struct held *held)
{
    (void)sigprocmask(SIG_SETMASK, &held->before, NULL);
}
