/* bay rack: twelve bays side by side under one harness, each in a process of its own, so that none can stop another. */
#include "bay/commands.h"
#include "bay/files.h"
#include "bay/load.h"
#include "bay/options.h"
#include "bay/signals.h"
#include "bay/text.h"
#include "bay/track.h"
#include "bay/trouble.h"
#include "bay/words.h"

#include <errno.h>
#include <limits.h>
#include <poll.h>
#include <signal.h>
#include <stdio.h>
#include <string.h>
#include <sys/stat.h>
#include <sys/types.h>
#include <sys/wait.h>
#include <unistd.h>

enum { BAYS = 12, USUAL_SECONDS = 120, MOST_SECONDS = 3600 };

/* What a bay's process hands back through its pipe: small enough to arrive in one piece. */
struct outcome {
    int status;
    bool empty;
    uint32_t part;
    struct pod_report report;
    uint32_t changed;
    char words[1024];
};
_Static_assert(sizeof(struct outcome) <= PIPE_BUF, "an outcome arrives in one piece");

/* part: the word for the part of the bays that have no sheet, null where none was given. */
struct rack {
    const char *folder;
    const char *save;
    const char *part;
    uint32_t seconds;
    struct track track;
};

struct bay {
    unsigned number;
    pid_t process;
    int pipe;
    bool done;
    struct outcome outcome;
};

/* The signal that is to end the rack, 0 while there is none. */
static volatile sig_atomic_t ended_by;
static struct signals signals;

static void on_signal(int number)
{
    ended_by = number;
}

struct name {
    char text[PATH_MAX];
    bool there;
};

/* The longest name of a file in a folder, which is the track's. */
static const char harness_track[] = "/harness.track";

/* A file of a bay, or the track where the bay is 0. The folder's name leaves room, as check_folder has seen to. */
static struct name file_in(const char *folder, unsigned bay, const char *ending)
{
    struct name name;
    int length = bay == 0 ? snprintf(name.text, sizeof name.text, "%s%s", folder, harness_track)
                          : snprintf(name.text, sizeof name.text, "%s/bay%02u.%s", folder, bay, ending);
    name.there = length > 0 && file_exists(name.text);
    return name;
}

/* From here to the end of the bay's process nothing interrupts it, so that its outcome says what became of the file. */
static int save_bay(const struct rack *rack, unsigned number, const struct load *load)
{
    struct held held;
    if (rack->save == NULL) {
        return 0;
    }
    signals_hold(&held);
    struct name name = file_in(rack->save, number, "img");
    return deliver(&(struct output){ .path = name.text, .at = load->after, .length = load->before.length }, 1);
}

static bool is_empty(const struct rack *rack, unsigned number)
{
    return !file_in(rack->folder, number, "img").there && !file_in(rack->folder, number, "stream").there;
}

/* Gives 0 where each bay has a file of its own to be saved to. */
static int check_saves(const struct rack *rack)
{
    static struct name names[BAYS];
    static char bays[BAYS][8];
    struct named outputs[BAYS] = { { NULL, NULL } };
    for (unsigned i = 0; i < BAYS && rack->save != NULL; i++) {
        int length = snprintf(bays[i], sizeof bays[i], "bay %u", i + 1);
        if (length > 0 && !is_empty(rack, i + 1)) {
            names[i] = file_in(rack->save, i + 1, "img");
            outputs[i] = (struct named){ bays[i], names[i].text };
        }
    }
    return outputs_apart(outputs, BAYS);
}

/* One bay, from its files to its outcome. */
static void run_bay(const struct rack *rack, unsigned number, struct outcome *out)
{
    struct name image = file_in(rack->folder, number, "img");
    struct name stream = file_in(rack->folder, number, "stream");
    struct name sheet = file_in(rack->folder, number, "sheet");
    struct load load = { .image = image.text, .stream = stream.text };
    struct settings_options from = { .part = rack->part };
    if (sheet.there) {
        from = (struct settings_options){ .sheet = sheet.text }; /* a sheet is one of FWH's */
    }
    out->empty = !image.there && !stream.there;
    if (out->empty) {
        return;
    }
    out->status = load_begin(&load, &from);
    out->part = load.settings.part;
    if (out->status == 0) {
        track_lay(&rack->track, load.samples.at, load.samples.length / 2);
        out->status = load_run(&load, &out->report);
    }
    if (out->status == 0) {
        out->changed = blocks_changed(load.before.at, load.after);
        out->status = save_bay(rack, number, &load);
    }
    load_free(&load);
}

/* The life of a bay's process, which has the writing end of the pipe. It begins with the signals held back, so that
 * none is lost on the rack's handler. */
static _Noreturn void bay_process(const struct rack *rack, struct bay *bay, const struct held *held)
{
    struct outcome *outcome = &bay->outcome;
    char speaker[32];
    int length = snprintf(speaker, sizeof speaker, "bay rack: bay %u", bay->number);
    trouble_speaker(length > 0 ? speaker : "bay rack");
    trouble_into(outcome->words, sizeof outcome->words);
    signals_give_back(&signals);
    (void)signal(SIGALRM, SIG_DFL); /* it may have been ignored from the beginning, and is the bay's clock */
    signals_let(held);
    (void)alarm(rack->seconds);
    run_bay(rack, bay->number, outcome);
    _exit(write(bay->pipe, outcome, sizeof *outcome) == (ssize_t)sizeof *outcome ? 0 : TROUBLE_SOFTWARE);
}

static int no_process(void)
{
    return trouble(TROUBLE_SYSTEM, "a bay could not be started\n"
                                   "  expected  room for twelve processes\n"
                                   "  found     %s\n"
                                   "  do        end other programs and try again",
                   strerror(errno));
}

static int start_bay(const struct rack *rack, struct bay *bay)
{
    int ends[2];
    if (pipe(ends) != 0) {
        return no_process();
    }
    struct held held;
    signals_hold(&held);
    bay->process = fork();
    if (bay->process == 0) {
        (void)close(ends[0]);
        bay->pipe = ends[1];
        bay_process(rack, bay, &held);
    }
    signals_let(&held);
    (void)close(ends[1]);
    bay->pipe = ends[0];
    return bay->process < 0 ? no_process() : 0;
}

/* Takes what the bay's process left and sees it off. */
static void collect(struct bay *bay)
{
    ssize_t got = 0;
    int how = 0;
    do {
        got = read(bay->pipe, &bay->outcome, sizeof bay->outcome);
    } while (got < 0 && errno == EINTR);
    (void)close(bay->pipe);
    while (waitpid(bay->process, &how, 0) < 0 && errno == EINTR) {
        /* another signal; the process is waited for all the same, so that its files are whole when the rack ends */
    }
    bay->done = true;
    if (got == (ssize_t)sizeof bay->outcome) {
        return;
    }
    memset(&bay->outcome, 0, sizeof bay->outcome);
    bool told = WIFEXITED(how) && WEXITSTATUS(how) >= TROUBLE_USAGE;
    bay->outcome.status = told ? WEXITSTATUS(how) : TROUBLE_SOFTWARE;
    int length = snprintf(bay->outcome.words, sizeof bay->outcome.words,
                          "bay rack: bay %u ended before it was done\n"
                          "  expected  an outcome in good time\n"
                          "  found     %s, %s %d\n"
                          "  do        look at this bay's files; the other bays are not touched by it\n",
                          bay->number, WIFSIGNALED(how) && WTERMSIG(how) == SIGALRM ? "its time over" : "none",
                          WIFSIGNALED(how) ? "signal" : "status", WIFSIGNALED(how) ? WTERMSIG(how) : WEXITSTATUS(how));
    if (length < 0) {
        bay->outcome.words[0] = '\0';
    }
}

/* The progress line: on a terminal it is written over and over, elsewhere each bay has a line. */
static void tell_progress(const struct bay *bay, unsigned home)
{
    char line[64];
    int length = 0;
    if (isatty(STDERR_FILENO) == 1) {
        length = snprintf(line, sizeof line, "\r%u of %d bays home%s", home, BAYS, home == BAYS ? "\n" : "");
    } else {
        length = snprintf(line, sizeof line, "bay %u is home, %u of %d\n", bay->number, home, BAYS);
    }
    if (length > 0) {
        tell(STDERR_FILENO, line, (size_t)length);
    }
}

/* Waits until every bay has come home, or a signal says to end. */
static void wait_for_bays(struct bay *bays)
{
    unsigned home = 0;
    while (home < BAYS && ended_by == 0) {
        struct pollfd ready[BAYS];
        for (unsigned i = 0; i < BAYS; i++) {
            ready[i] = (struct pollfd){ .fd = bays[i].done ? -1 : bays[i].pipe, .events = POLLIN };
        }
        int some = poll(ready, BAYS, 200);
        if (some == 0 || (some < 0 && errno == EINTR)) {
            continue; /* nothing yet, or a signal, which ended_by tells */
        }
        for (unsigned i = 0; i < BAYS; i++) {
            /* a system that does not let the rack wait for any has it wait for each in turn */
            if (!bays[i].done && (some < 0 || ready[i].revents != 0)) {
                collect(&bays[i]);
                tell_progress(&bays[i], ++home);
            }
        }
    }
}

/* Ends those bays that are still under way; each leaves its files whole. */
static void end_bays(struct bay *bays)
{
    for (unsigned i = 0; i < BAYS; i++) {
        if (!bays[i].done && bays[i].process > 0) {
            (void)kill(bays[i].process, SIGTERM);
            collect(&bays[i]);
        }
    }
}

static void tell_row(struct text *text, unsigned number, const struct outcome *outcome)
{
    if (outcome->empty) {
        text_add(text, "%3u  empty\n", number);
    } else if (outcome->status != 0) {
        text_add(text, "%3u  %s %d\n", number, outcome->status < TROUBLE_USAGE ? "refusal" : "trouble", outcome->status);
    } else {
        text_add(text, "%3u  done     %-4s  %7s  %-36s", number, part_word(outcome->part),
                 counted(outcome->report.samples).text, brief_status(outcome->report.status).text);
        text_add(text, "  %-8s  %s\n", brief_blocks(outcome->report.marks).text, brief_blocks(outcome->changed).text);
    }
}

/* The table, and the lowest status other than 0, which a refusal always is before other trouble. */
static int tell_rack(struct text *text, const struct bay *bays)
{
    int lowest = 0;
    unsigned done = 0;
    unsigned empty = 0;
    text_add(text, "bay  outcome  part  samples  status                                spoiled   changed\n");
    for (unsigned i = 0; i < BAYS; i++) {
        const struct outcome *outcome = &bays[i].outcome;
        tell_row(text, i + 1, outcome);
        empty += outcome->empty ? 1U : 0U;
        done += !outcome->empty && outcome->status == 0 ? 1U : 0U;
        if (outcome->status != 0 && (lowest == 0 || outcome->status < lowest)) {
            lowest = outcome->status;
        }
    }
    text_add(text, "%u done, %u not, %u empty\n", done, BAYS - done - empty, empty);
    return lowest;
}

static void tell_troubles(const struct bay *bays)
{
    for (unsigned i = 0; i < BAYS; i++) {
        const struct outcome *outcome = &bays[i].outcome;
        tell(STDERR_FILENO, outcome->words, outcome->status != 0 ? strlen(outcome->words) : 0);
    }
}

static int check_folder(const char *path)
{
    struct stat about;
    int error = stat(path, &about) == 0 ? 0 : errno;
    if (error == 0 && strlen(path) + sizeof harness_track > PATH_MAX) {
        error = ENAMETOOLONG;
    }
    if (error == 0 && S_ISDIR(about.st_mode)) {
        return 0;
    }
    return trouble(TROUBLE_NO_INPUT, "%s is no folder\n"
                                     "  expected  a folder that is there\n"
                                     "  found     %s\n"
                                     "  do        make it, or name another",
                   path, error == 0 ? "something that is no folder" : strerror(error));
}

static int run_rack(const struct rack *rack)
{
    static struct bay bays[BAYS];
    int status = 0;
    signals_take(&signals, on_signal, 0);
    for (unsigned i = 0; i < BAYS && status == 0 && ended_by == 0; i++) {
        bays[i].number = i + 1;
        bays[i].pipe = -1;
        status = start_bay(rack, &bays[i]);
    }
    if (status == 0) {
        wait_for_bays(bays);
    }
    end_bays(bays);
    signals_give_back(&signals);
    if (ended_by != 0) {
        signals_end_by(ended_by);
    }
    if (status != 0) {
        return status;
    }
    struct text text = { NULL, 0, 0 };
    tell_troubles(bays);
    status = tell_rack(&text, bays);
    int told = deliver(&(struct output){ .at = text.bytes, .length = text.length, .report = true }, 1);
    text_free(&text);
    return status != 0 ? status : told;
}

int command_rack(int count, char **words)
{
    struct rack rack = { .seconds = USUAL_SECONDS };
    const char *harness = NULL;
    const char *seconds = NULL;
    uint32_t part = POD_PART_FWH;
    const struct option options[] = {
        { "--part", &rack.part, NULL },
        { "--harness", &harness, NULL },
        { "--save", &rack.save, NULL },
        { "--seconds", &seconds, NULL },
    };
    const struct place places[] = { { "FOLDER", &rack.folder } };
    const struct line line = { options, sizeof options / sizeof options[0], places, 1 };
    int status = options_take(&line, count, words);
    if (status == 0) {
        status = part_take(rack.part, &part); /* a word that is none is told once, and not by each bay */
    }
    if (status == 0 && seconds != NULL) {
        status = number_within("--seconds", seconds, (struct bounds){ 1, MOST_SECONDS }, &rack.seconds);
    }
    if (status == 0) {
        status = check_folder(rack.folder);
    }
    if (status == 0 && rack.save != NULL) {
        status = check_folder(rack.save);
    }
    if (status == 0) {
        status = check_saves(&rack);
    }
    if (status == 0) {
        struct name usual = file_in(rack.folder, 0, NULL);
        if (harness == NULL && usual.there) {
            harness = usual.text;
        }
        status = harness == NULL ? 0 : track_read(harness, &rack.track);
    }
    if (status == 0) {
        status = run_rack(&rack);
    }
    track_free(&rack.track);
    return status;
}
