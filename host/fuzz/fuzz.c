/* fuzz: everything of bay that reads a file or a socket, on inputs that were spoiled. */
#include "fuzz/child.h"
#include "fuzz/kinds.h"
#include "fuzz/seeds.h"
#include "fuzz/spoil.h"

#include <errno.h>
#include <limits.h>
#include <signal.h>
#include <stdio.h>
#include <stdlib.h>
#include <string.h>
#include <sys/stat.h>
#include <time.h>

/* A kind that fails so often is left, since the first failures tell enough. */
enum { USUAL_SECONDS = 600, FAILURES_MOST = 3, STATUSES = 256, EXIT_USAGE = 64, TOLD_LINES = 12 };

static const char usage[] =
    "fuzz [options] SEEDS: everything of bay that reads a file or a socket, on inputs that were spoiled\n"
    "\n"
    "SEEDS has a folder for each kind of input. Every seed is tried as it is, then spoiled.\n"
    "\n"
    "  --seconds S         how long, divided evenly among the kinds (usually 600)\n"
    "  --turns N           so many turns for each kind instead\n"
    "  --seed N            where the draws begin (usually from the time)\n"
    "  --only KIND         one kind alone: stream, image, sheet, words, track, rack or serprog\n"
    "  --replay KIND FILE  one input, as it is, with what bay prints\n"
    "\n"
    "What fails is kept in build/fuzz-found. The status is 0 where every kind holds, else 1.\n";

static const char found_folder[] = "build/fuzz-found";

struct asked {
    const char *program;
    const char *seeds;
    const char *only;
    const char *replay;
    const char *file;
    uint64_t seconds;
    uint64_t turns;
    uint64_t seed;
};

/* One kind's turns so far. */
struct tally {
    uint64_t turns;
    uint64_t failures;
    uint64_t statuses[STATUSES];
};

/* Set once the driver is to end; the turn under way is still judged. */
static volatile sig_atomic_t ended;

static void on_signal(int number)
{
    (void)number;
    ended = 1;
}

/* What would end the driver lets it end in order, with its folder removed. */
static void catch_signals(void)
{
    static const int numbers[] = { SIGINT, SIGTERM, SIGHUP, SIGPIPE };
    struct sigaction ours = { .sa_handler = on_signal };
    for (size_t i = 0; i < sizeof numbers / sizeof numbers[0]; i++) {
        (void)sigaction(numbers[i], &ours, NULL);
    }
}

static int64_t milliseconds_now(void)
{
    struct timespec now = { 0, 0 };
    (void)clock_gettime(CLOCK_MONOTONIC, &now);
    return (int64_t)now.tv_sec * 1000 + now.tv_nsec / 1000000;
}

static const struct kind *kind_named(const char *name)
{
    for (size_t i = 0; i < KINDS; i++) {
        if (strcmp(kinds[i].name, name) == 0) {
            return &kinds[i];
        }
    }
    return NULL;
}

/* What the child printed last, of which the front tells most. */
static void tell_told(const struct place *place)
{
    char line[256];
    FILE *told = fopen(place->told, "rb");
    for (int i = 0; told != NULL && i < TOLD_LINES && fgets(line, sizeof line, told) != NULL; i++) {
        (void)fprintf(stderr, "    %s%s", line, strchr(line, '\n') == NULL ? "\n" : "");
    }
    if (told != NULL) {
        (void)fclose(told);
    }
}

/* Keeps an input that failed, and says how to see it again. */
static void keep(const struct asked *asked, const struct kind *kind, const struct input *input, uint64_t number)
{
    char path[PATH_MAX];
    int length = snprintf(path, sizeof path, "%s/%s-%llu-%llu", found_folder, kind->name,
                          (unsigned long long)asked->seed, (unsigned long long)number);
    (void)mkdir("build", 0777);
    (void)mkdir(found_folder, 0777);
    FILE *file = length > 0 ? fopen(path, "wb") : NULL;
    bool kept = file != NULL && fwrite(input->at, 1, input->length, file) == input->length;
    if (file == NULL || fclose(file) != 0 || !kept) {
        (void)fprintf(stderr, "    it cannot be kept in %s: %s\n", path, strerror(errno));
    } else {
        (void)fprintf(stderr, "    to see it again: %s --replay %s %s\n", asked->program, kind->name, path);
    }
}

struct wanted {
    uint64_t seed;
    uint64_t turn;
};

/* The input of a turn: the seeds as they are, then seeds that were spoiled. It depends on seed, kind and turn alone. */
static void make_input(struct input *out, const struct kind *kind, const struct seeds *seeds, struct wanted wanted)
{
    struct draws draws = { wanted.seed * 1000003U + (uint64_t)(kind - kinds) };
    uint64_t number = wanted.turn;
    draws.state = draw(&draws) + number;
    draws.state = draw(&draws);
    bool spoiled = number >= seeds->count;
    const struct input *from = seeds->inputs[spoiled ? draw_below(&draws, seeds->count) : (size_t)number];
    out->length = from->length;
    memcpy(out->at, from->at, from->length);
    if (spoiled) {
        spoil(out, seeds->inputs[draw_below(&draws, seeds->count)], &kind->style, &draws);
        if (kind->mend != NULL) {
            kind->mend(out, &draws);
        }
    }
}

static void take_turn(const struct asked *asked, const struct place *place, const struct kind *kind,
                      const struct seeds *seeds, struct tally *tally)
{
    static struct input input;
    uint64_t number = tally->turns++;
    make_input(&input, kind, seeds, (struct wanted){ asked->seed, number });
    struct verdict verdict = turn(place, kind, &input, false);
    tally->statuses[verdict.status & (STATUSES - 1)]++;
    if (verdict.wrong != NULL) {
        tally->failures++;
        (void)fprintf(stderr, "fuzz: %s, turn %llu: %s; status %d\n", kind->name, (unsigned long long)number,
                      verdict.wrong, verdict.status);
        tell_told(place);
        keep(asked, kind, &input, number);
    }
}

static void tell_kind(const struct kind *kind, const struct tally *tally, int64_t took)
{
    unsigned long long second = took > 0 ? tally->turns * 1000 / (uint64_t)took : tally->turns;
    (void)printf("%-8s %7llu turns, %4llu a second; status", kind->name, (unsigned long long)tally->turns, second);
    for (int i = 0; i < STATUSES; i++) {
        if (tally->statuses[i] != 0) {
            bool by_signal = i > STATUSES / 2;
            (void)printf("  %s%d: %llu", by_signal ? "signal " : "", by_signal ? STATUSES - i : i,
                         (unsigned long long)tally->statuses[i]);
        }
    }
    (void)printf("%s\n", tally->failures == 0 ? "" : "  failed");
    (void)fflush(stdout);
}

/* All turns of one kind. Says whether it holds. */
static bool fuzz_kind(const struct asked *asked, const struct place *place, const struct kind *kind, int64_t share)
{
    struct seeds seeds;
    struct tally tally = { 0 };
    int64_t began = milliseconds_now();
    bool ready = seeds_read(asked->seeds, kind->name, &seeds);
    while (ready && tally.failures < FAILURES_MOST && ended == 0) {
        bool more = asked->turns > 0 ? tally.turns < asked->turns : milliseconds_now() - began < share;
        if (!more && (asked->turns > 0 || tally.turns >= seeds.count)) {
            break;
        }
        take_turn(asked, place, kind, &seeds, &tally);
    }
    tell_kind(kind, &tally, milliseconds_now() - began);
    seeds_free(&seeds);
    return ready && tally.failures == 0;
}

static int fuzz(const struct asked *asked, const struct place *place)
{
    unsigned passed = 0;
    unsigned failed = 0;
    int64_t share = (int64_t)asked->seconds * 1000 / (asked->only != NULL ? 1 : KINDS);
    for (size_t i = 0; i < KINDS && ended == 0; i++) {
        if (asked->only != NULL && strcmp(asked->only, kinds[i].name) != 0) {
            continue;
        }
        if (fuzz_kind(asked, place, &kinds[i], share) && ended == 0) {
            passed++;
        } else {
            failed++;
        }
    }
    (void)printf("seed %llu; lost memory is %s\n", (unsigned long long)asked->seed,
                 place->leaks ? "looked for" : "not looked for, since it cannot be here");
    (void)printf("fuzz: %u passed, %u failed\n", passed, failed);
    return failed == 0 ? 0 : 1;
}

static int replay(const struct asked *asked, const struct place *place)
{
    static struct input input;
    if (!input_read(asked->file, &input)) {
        return 1;
    }
    struct verdict verdict = turn(place, kind_named(asked->replay), &input, true);
    (void)printf("%s: status %d; %s\n", asked->file, verdict.status, verdict.wrong != NULL ? verdict.wrong : "holds");
    return verdict.wrong != NULL ? 1 : 0;
}

static bool take_number(const char *word, uint64_t *out)
{
    char *end = NULL;
    errno = 0;
    *out = word == NULL || word[0] < '0' || word[0] > '9' ? 0 : strtoull(word, &end, 10);
    return end != NULL && *end == '\0' && errno == 0;
}

/* Takes the word at `at` with what belongs to it. Gives how many words those are, 0 where it is not known. */
static int take_word(struct asked *asked, char **words, int left)
{
    const struct {
        const char *name;
        uint64_t *number;
    } numbers[] = { { "--seconds", &asked->seconds }, { "--turns", &asked->turns }, { "--seed", &asked->seed } };
    for (size_t i = 0; i < sizeof numbers / sizeof numbers[0]; i++) {
        if (left > 1 && strcmp(words[0], numbers[i].name) == 0) {
            return take_number(words[1], numbers[i].number) ? 2 : 0;
        }
    }
    if (left > 1 && strcmp(words[0], "--only") == 0) {
        asked->only = words[1];
        return kind_named(asked->only) != NULL ? 2 : 0;
    }
    if (left > 2 && strcmp(words[0], "--replay") == 0) {
        asked->replay = words[1];
        asked->file = words[2];
        return kind_named(asked->replay) != NULL ? 3 : 0;
    }
    if (words[0][0] == '-' || asked->seeds != NULL) {
        return 0;
    }
    asked->seeds = words[0];
    return 1;
}

int main(int count, char **words)
{
    struct asked asked = { .program = words[0], .seconds = USUAL_SECONDS, .seed = (uint64_t)time(NULL) };
    static struct place place;
    for (int at = 1; at < count;) {
        int taken = take_word(&asked, words + at, count - at);
        if (taken == 0) {
            (void)fputs(usage, stderr);
            return EXIT_USAGE;
        }
        at += taken;
    }
    if (asked.seeds == NULL && asked.replay == NULL) {
        (void)fputs(usage, stderr);
        return EXIT_USAGE;
    }
    catch_signals();
    int status = 1;
    if (place_make(&place)) {
        status = asked.replay != NULL ? replay(&asked, &place) : fuzz(&asked, &place);
    }
    place_remove(&place);
    return status;
}
