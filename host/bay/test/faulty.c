/* bay with faults: the same program, linked so that its calls of the system pass through here. FAULTY says which of them
 * goes wrong, as "ACT CALL N", or several such with a comma between them:
 *
 *     ACT    kill     the program ends there as in a power cut, before the call
 *            term     SIGTERM comes, right after the call
 *            NUMBER   the call is not made and fails with this errno
 *     CALL   its name, or `file` for any that makes, changes, renames or removes a file
 *     N      which of them, counted from 1; `N+` is that one and all that follow
 *
 * FAULTY_COUNT names a file that gets the number of `file` calls that were made, when the program ends by itself. */
#include <errno.h>
#include <fcntl.h>
#include <poll.h>
#include <signal.h>
#include <stdarg.h>
#include <stdbool.h>
#include <stdio.h>
#include <stdlib.h>
#include <string.h>
#include <sys/file.h>
#include <sys/socket.h>
#include <sys/stat.h>
#include <unistd.h>

enum { PLANS = 4 };

struct plan {
    char act[16];
    char call[16];
    unsigned long from;
    bool onwards;
    unsigned long met;
};

static struct plan plans[PLANS];
static bool plans_read;
static unsigned long file_calls;

static void tell_count(void)
{
    const char *path = getenv("FAULTY_COUNT");
    FILE *out = path == NULL ? NULL : fopen(path, "w");
    if (out != NULL) {
        (void)fprintf(out, "%lu\n", file_calls);
        (void)fclose(out);
    }
}

static void read_plans(void)
{
    const char *words = getenv("FAULTY");
    plans_read = true;
    (void)atexit(tell_count);
    for (size_t i = 0; i < PLANS && words != NULL; i++) {
        char number[16] = "";
        if (sscanf(words, "%15s %15s %15[0-9+]", plans[i].act, plans[i].call, number) != 3) {
            (void)fprintf(stderr, "faulty: FAULTY is no ACT CALL N: %s\n", words);
            _exit(99);
        }
        plans[i].from = strtoul(number, NULL, 10);
        plans[i].onwards = strchr(number, '+') != NULL;
        words = strchr(words, ',');
        words = words == NULL ? NULL : words + 1;
    }
}

static bool is_due(struct plan *plan, const char *call, bool file)
{
    if (plan->act[0] == '\0' || (strcmp(plan->call, call) != 0 && !(file && strcmp(plan->call, "file") == 0))) {
        return false;
    }
    plan->met++;
    return plan->met == plan->from || (plan->met > plan->from && plan->onwards);
}

/* What goes wrong with this call: null if nothing does. */
static const char *met(const char *call, bool file)
{
    const char *act = NULL;
    if (!plans_read) {
        read_plans();
    }
    file_calls += file ? 1 : 0;
    for (size_t i = 0; i < PLANS; i++) {
        if (is_due(&plans[i], call, file)) {
            act = plans[i].act;
        }
    }
    if (act != NULL && strcmp(act, "kill") == 0) {
        (void)raise(SIGKILL);
    }
    return act;
}

static bool fails(const char *act)
{
    long error = act == NULL ? 0 : strtol(act, NULL, 10);
    if (error > 0) {
        errno = (int)error;
    }
    return error > 0;
}

static void after(const char *act)
{
    int error = errno;
    if (act != NULL && strcmp(act, "term") == 0) {
        (void)raise(SIGTERM);
    }
    errno = error;
}

#define WRAPPED(name, file, parameters, arguments, type)   \
    type __real_##name parameters;                         \
    type __wrap_##name parameters;                         \
    type __wrap_##name parameters                          \
    {                                                      \
        const char *act = met(#name, file);                \
        if (fails(act)) {                                  \
            return -1;                                     \
        }                                                  \
        type result = __real_##name arguments;             \
        after(act);                                        \
        return result;                                     \
    }

WRAPPED(write, true, (int place, const void *from, size_t length), (place, from, length), ssize_t)
WRAPPED(fsync, true, (int place), (place), int)
WRAPPED(fchmod, true, (int place, mode_t mode), (place, mode), int)
WRAPPED(fchown, true, (int place, uid_t owner, gid_t group), (place, owner, group), int)
WRAPPED(link, true, (const char *from, const char *to), (from, to), int)
WRAPPED(rename, true, (const char *from, const char *to), (from, to), int)
WRAPPED(unlink, true, (const char *path), (path), int)
WRAPPED(accept, false, (int place, struct sockaddr *address, socklen_t *length), (place, address, length), int)
WRAPPED(sigaction, false, (int number, const struct sigaction *now, struct sigaction *old), (number, now, old), int)
WRAPPED(flock, false, (int place, int what), (place, what), int)
WRAPPED(lstat, false, (const char *path, struct stat *about), (path, about), int)
WRAPPED(poll, false, (struct pollfd *files, nfds_t count, int wait), (files, count, wait), int)

/* NOLINTBEGIN(bugprone-reserved-identifier,cert-dcl37-c,cert-dcl51-cpp): the names that the linker's --wrap asks for */
int __real_open(const char *path, int flags, ...);
int __wrap_open(const char *path, int flags, ...);
void *__real_malloc(size_t length);
void *__wrap_malloc(size_t length);
/* NOLINTEND(bugprone-reserved-identifier,cert-dcl37-c,cert-dcl51-cpp) */
void *__wrap_malloc(size_t length)
{
    const char *act = met("malloc", false);
    void *memory = fails(act) ? NULL : __real_malloc(length);
    after(act);
    return memory;
}

int __wrap_open(const char *path, int flags, ...)
{
    const char *act = (flags & O_CREAT) != 0 ? met("open", true) : NULL;
    mode_t mode = 0;
    if (fails(act)) {
        return -1;
    }
    if ((flags & O_CREAT) != 0) {
        va_list rest;
        va_start(rest, flags);
        mode = va_arg(rest, mode_t);
        va_end(rest);
    }
    int place = __real_open(path, flags, mode);
    after(act);
    return place;
}
