/* Children: made, limited, fed, waited for and judged. */
#include "fuzz/child.h"

#include "fuzz/client.h"

#include <errno.h>
#include <fcntl.h>
#include <ftw.h>
#include <signal.h>
#include <stdio.h>
#include <stdlib.h>
#include <string.h>
#include <sys/resource.h>
#include <sys/socket.h>
#include <sys/stat.h>
#include <sys/types.h>
#include <sys/wait.h>
#include <unistd.h>

/* SECONDS: what a child may take; the driver waits for GRACE more. One turn in LEAKS looks for lost memory at its end,
 * which takes much longer than the turn. */
enum { SECONDS = 10, GRACE = 2, FILE_MOST = 64 << 20, FILES_MOST = 64, LEAKS = 6, SPOKE = 99, TOLD_MOST = 1 << 20 };

#ifdef __SANITIZE_ADDRESS__
/* A sanitizer that speaks ends the child with a status that bay does not have. */
const char *__asan_default_options(void);
const char *__ubsan_default_options(void);

const char *__asan_default_options(void)
{
    return "exitcode=99:detect_leaks=1:max_allocation_size_mb=64:allocator_may_return_null=0:handle_abort=1";
}

const char *__ubsan_default_options(void)
{
    return "exitcode=99:print_stacktrace=1";
}

static const bool watched = true;
#else
static const bool watched = false;
#endif

/* In place of the system's: no turn waits for the disk, on which nothing is to stay. */
int fsync(int file)
{
    return fcntl(file, F_GETFD) < 0 ? -1 : 0;
}

/* The child that is waited for, so that its time can be ended. */
static volatile sig_atomic_t waited_for;

static void on_alarm(int number)
{
    (void)number;
    if (waited_for > 0) {
        (void)kill(-(pid_t)waited_for, SIGKILL);
    }
}

static void limit(int what, rlim_t most)
{
    struct rlimit now;
    if (getrlimit(what, &now) == 0 && (now.rlim_max == RLIM_INFINITY || now.rlim_max > most)) {
        now.rlim_cur = most;
        now.rlim_max = most;
        (void)setrlimit(what, &now);
    }
}

/* Standard streams and limits of a child. */
static void settle_in(const struct place *place, bool loud)
{
    int nothing = open("/dev/null", O_RDONLY | O_CLOEXEC);
    int told = loud ? STDERR_FILENO : open(place->told, O_WRONLY | O_CREAT | O_TRUNC | O_APPEND | O_CLOEXEC, 0600);
    (void)dup2(nothing, STDIN_FILENO);
    if (!loud && (dup2(told, STDOUT_FILENO) < 0 || dup2(told, STDERR_FILENO) < 0)) {
        _exit(SPOKE);
    }
    limit(RLIMIT_CPU, SECONDS);
    limit(RLIMIT_FSIZE, FILE_MOST);
    limit(RLIMIT_NOFILE, FILES_MOST);
    limit(RLIMIT_CORE, 0);
    static const int usual[] = { SIGALRM, SIGINT, SIGTERM, SIGHUP, SIGPIPE };
    for (size_t i = 0; i < sizeof usual / sizeof usual[0]; i++) {
        (void)signal(usual[i], SIG_DFL);
    }
    (void)signal(SIGXFSZ, SIG_IGN); /* as bay's main has it */
    (void)alarm(SECONDS);
}

static _Noreturn void live(const struct place *place, const struct kind *kind, const struct task *task, bool loud)
{
    (void)setpgid(0, 0);
    settle_in(place, loud);
    if (chdir(place->turn) != 0) {
        _exit(SPOKE);
    }
    int status = kind->carry_out(task);
    if (place->leaks && (loud || task->choice / 64 % LEAKS == 0)) {
        exit(status);
    }
    _exit(status);
}

/* Waits for the child, which is ended where it does not end. Gives how it ended. */
static int see_off(pid_t child)
{
    int how = 0;
    (void)alarm(SECONDS + GRACE);
    while (waitpid(child, &how, 0) < 0 && errno == EINTR) {
    }
    (void)alarm(0);
    waited_for = 0;
    return how;
}

/* What stands in the folder of the turn after it. */
static struct {
    bool draft;
    bool output;
} left;

static int look_and_remove(const char *path, const struct stat *about, int what, struct FTW *where)
{
    const char *name = path + where->base;
    (void)about;
    (void)what;
    left.draft = left.draft || strncmp(name, ".bay-", 5) == 0;
    left.output = left.output || strncmp(name, "out.", 4) == 0;
    return where->level == 0 ? 0 : remove(path);
}

static int only_remove(const char *path, const struct stat *about, int what, struct FTW *where)
{
    (void)about;
    (void)what;
    (void)where;
    return remove(path);
}

/* Whether a sanitizer, or a rack whose bay did not come home, is to be heard in what was printed. */
static const char *heard(const struct place *place)
{
    static const char *const words[] = { "Sanitizer", "runtime error:", "ended before it was done" };
    static char told[TOLD_MOST + 1];
    FILE *file = fopen(place->told, "rb");
    size_t length = file == NULL ? 0 : fread(told, 1, TOLD_MOST, file);
    if (file != NULL) {
        (void)fclose(file);
    }
    for (size_t i = 0; i < length; i++) {
        told[i] = (char)(told[i] == '\0' ? ' ' : told[i]);
    }
    told[length] = '\0';
    for (size_t i = 0; i < sizeof words / sizeof words[0]; i++) {
        if (strstr(told, words[i]) != NULL) {
            return words[i];
        }
    }
    return NULL;
}

static bool is_documented(int status)
{
    static const int above[] = { 64, 65, 66, 69, 71, 73, 74 };
    for (size_t i = 0; i < sizeof above / sizeof above[0]; i++) {
        if (status == above[i]) {
            return true;
        }
    }
    return status >= 0 && status <= 10;
}

/* Whether it is a signal that ends what takes too long. */
static bool is_time(int number)
{
    return number == SIGALRM || number == SIGKILL || number == SIGXCPU;
}

static struct verdict judge(const struct place *place, int how, bool strays)
{
    struct verdict verdict = { WIFEXITED(how) ? WEXITSTATUS(how) : -WTERMSIG(how), NULL };
    left.draft = false;
    left.output = false;
    bool emptied = nftw(place->turn, look_and_remove, 8, FTW_DEPTH | FTW_PHYS) == 0;
    if (!WIFEXITED(how)) {
        verdict.wrong = is_time(WTERMSIG(how)) ? "no end in time" : "ended by a signal";
    } else if (verdict.status == SPOKE) {
        verdict.wrong = "a sanitizer spoke";
    } else if (verdict.status == 70) {
        verdict.wrong = "a fault of the program, as it says itself";
    } else if (!is_documented(verdict.status)) {
        verdict.wrong = "a status that is not documented";
    } else if (left.draft) {
        verdict.wrong = "a draft stays behind";
    } else if (left.output && verdict.status != 0) {
        verdict.wrong = "an output is there in spite of an error";
    } else if (strays) {
        verdict.wrong = "a process stays behind";
    } else if (!emptied) {
        verdict.wrong = "the folder of the turn cannot be emptied";
    } else {
        verdict.wrong = heard(place);
    }
    return verdict;
}

struct verdict turn(const struct place *place, const struct kind *kind, const struct input *input, bool loud)
{
    int ends[2] = { -1, -1 };
    struct task task = { input, input_sum(input), -1 };
    if (kind->line && socketpair(AF_UNIX, SOCK_STREAM, 0, ends) != 0) {
        return (struct verdict){ 0, "no line can be had" };
    }
    task.line = ends[0];
    (void)fflush(NULL);
    pid_t child = fork();
    if (child == 0) {
        (void)close(ends[1]);
        live(place, kind, &task, loud);
    }
    (void)close(ends[0]);
    if (child < 0) {
        (void)close(ends[1]);
        return (struct verdict){ 0, "no child can be had" };
    }
    (void)setpgid(child, child);
    waited_for = child;
    if (kind->line) {
        client_speak(ends[1], input, client_manner(task.choice));
    }
    int how = see_off(child);
    bool strays = kill(-child, SIGKILL) == 0;
    return judge(place, how, strays);
}

/* Whether a child that loses nothing is told so: where a child may not be looked into, it is not. */
static bool can_look_for_leaks(const struct place *place)
{
    if (!watched) {
        return false;
    }
    pid_t child = fork();
    if (child == 0) {
        settle_in(place, false);
        exit(0);
    }
    int how = child < 0 ? 1 : see_off(child);
    return WIFEXITED(how) && WEXITSTATUS(how) == 0;
}

static bool named(char *to, const char *folder, const char *name)
{
    int length = snprintf(to, PATH_MAX, "%s/%s", folder, name);
    return length > 0 && length < PATH_MAX;
}

bool place_make(struct place *place)
{
    const char *above = getenv("TMPDIR");
    struct sigaction ours;
    memset(&ours, 0, sizeof ours);
    ours.sa_handler = on_alarm;
    int back = open(".", O_RDONLY | O_CLOEXEC);
    place->folder[0] = '\0';
    bool made = named(place->folder, above != NULL && above[0] != '\0' ? above : P_tmpdir, "fuzz-XXXXXX") &&
                mkdtemp(place->folder) != NULL && named(place->told, place->folder, "told") &&
                named(place->turn, place->folder, "turn") && mkdir(place->turn, 0700) == 0 && back >= 0 &&
                chdir(place->folder) == 0 && common_files() && fchdir(back) == 0 &&
                sigaction(SIGALRM, &ours, NULL) == 0;
    if (!made) {
        (void)fprintf(stderr, "fuzz: no folder can be made for the turns: %s\n", strerror(errno));
        return false;
    }
    (void)close(back);
    place->leaks = can_look_for_leaks(place);
    return true;
}

void place_remove(const struct place *place)
{
    if (place->folder[0] == '\0') {
        return;
    }
    (void)nftw(place->folder, only_remove, 8, FTW_DEPTH | FTW_PHYS);
}
