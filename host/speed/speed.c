/* How fast the proved library is: beside the hand-written model on the same streams, and settle beside the clocks that
 * it stands for. All sides of a row are measured in one run, a round of one and then a round of the next.
 *
 *   speed [--check] [--machine KIND] [--flags FLAGS] [TRACES]
 *
 * TRACES is what `diff --record` writes. Before a row is timed, its sides must give the same; with --check that is all
 * that is done, and the longest erase is left out. KIND is the kind of the machine, which a program under an emulator
 * cannot see (x86_64 if not said), and FLAGS what the C side was compiled with; both are only printed. No time is too
 * long: the one failure is a row whose sides differ. */
#include "model.h"
#include "pod.h"
#include "speed/sides.h"
#include "speed/streams.h"
#include "speed/tables.h"
#include "speed/text.h"
#include "speed/timing.h"
#include "speed/traces.h"
#include "speed/traffic.h"
#include "speed/waits.h"
#include "speed/ways.h"

#include <inttypes.h>
#include <stdbool.h>
#include <stdio.h>
#include <string.h>
#include <time.h>

struct options {
    const char *machine, *flags, *traces;
    bool check;
};

static struct row rows[TRAFFIC_ROWS + 2];
static size_t row_count;

static bool take_options(int argc, char **argv, struct options *options)
{
    *options = (struct options){ .machine = "x86_64", .flags = "flags not given" };
    for (int i = 1; i < argc; i++) {
        if (strcmp(argv[i], "--check") == 0) {
            options->check = true;
        } else if (strcmp(argv[i], "--machine") == 0 && i + 1 < argc) {
            options->machine = argv[++i];
        } else if (strcmp(argv[i], "--flags") == 0 && i + 1 < argc) {
            options->flags = argv[++i];
        } else if (argv[i][0] != '-' && options->traces == NULL) {
            options->traces = argv[i];
        } else {
            return false;
        }
    }
    return true;
}

static void print_head(const struct options *options)
{
    const time_t seconds = time(NULL);
    char date[32] = "";
    struct tm parts;
    if (gmtime_r(&seconds, &parts) != NULL) {
        strftime(date, sizeof date, "%Y-%m-%d", &parts);
    }
    printf("- Machine: ");
    print_from("/proc/cpuinfo", "model name", "a processor that the system does not name");
    printf(", %s. Date: %s.\n", options->machine, date);
    if (strcmp(options->machine, "x86_64") != 0) {
        printf("- EMULATED: the library is for x86-64 and this machine is not, so both sides ran under an emulator.\n"
               "  The times say little about a machine that needs none.\n");
    }
    printf("- Builds: both sides are release builds, the proved library as the toolchain builds it, the C model and\n"
           "  the loops around both by gcc %s with `%s`.\n",
           __VERSION__, options->flags);
    printf("- Clock: processor time of the process. A round of one side, then of the next; the best of %d rounds of\n"
           "  at least %d ms each (fewer rounds where a side has taken %d s).\n",
           ROUNDS, ROUND_NS / 1000000, SIDE_NS / 1000000000);
    printf("- Buffers: every side is lent the same image, stream and answers, touched before and warm in cache as far\n"
           "  as they fit. Blocks that a stream changes are put back before the next call, outside the timed part.\n");
    fflush(stdout);
}

static void print_mix(void)
{
    const struct row *fwh = &rows[TRAFFIC_ROWS], *lpc = &rows[TRAFFIC_ROWS + 1];
    if (row_count == TRAFFIC_ROWS) {
        printf("The differential test's mix is left out: no traces were given.\n");
    } else {
        printf("The mix is %zu traces of the differential test on FWH and %zu others on LPC, %s samples in all, each\n"
               "from its own power-up.\n",
               fwh->count, lpc->count, with_commas(fwh->samples + lpc->samples));
    }
}

static void print_tables(void)
{
    static const enum way runs[] = { MODEL_RUN, POD_RUN }, steps[] = { MODEL_STEP, POD_STEP, POD_CLOCK };
    printf("\n## pod_run beside model_run\n\n"
           "Million clocks in a second, on streams of %s samples. A ratio above 1 says that the pod is the faster.\n"
           "model_run steps every clock; pod_run takes what it knows by looking ahead at once. In the rows of an erase "
           "begun\n"
           "a slice takes 3,906 µs, so that none ends in the stream. A row of LPC, but for the mix, has the traffic\n"
           "of the row above it laid as LPC frames; the last ratio is that of their speeds.\n",
           with_commas(MOST_SAMPLES));
    print_mix();
    printf("\n");
    print_streams(rows, row_count, runs, sizeof runs / sizeof runs[0]);
    printf("\n## pod_step and pod_clock beside model_step\n\nThe same streams, a call for each sample. "
           "pod_step and pod_clock test every device handed in for\nsoundness; model_step has no such test.\n\n");
    print_streams(rows, row_count, steps, sizeof steps / sizeof steps[0]);
    printf("\n## pod_settle beside as many calls of pod_clock\n\n"
           "From the end of the frame that begins it, which is %d clocks behind its acceptance. The image is not put\n"
           "back: each call but the first of a round writes what stands there already. Where the last column has a\n"
           "number, the time is scaled from so many clocks in the middle of the wait.\n\n",
           AFTER_ACTING);
    print_waits();
    printf("\n## Bytes of the device record\n\n");
    printf("| %-17s | bytes |\n|-------------------|------:|\n", "record");
    printf("| %-17s | %5zu |\n", "struct pod_device", sizeof(struct pod_device));
    printf("| %-17s | %5zu |\n", "struct model", sizeof(struct model));
    if (sides.failed == 0) {
        printf("\nIn all %" PRIu32 " comparisons the sides of a row gave the same results.\n", sides.passed);
    }
}

static void new_rows(const char *traces)
{
    base_image_new();
    ways_new();
    traffic_rows(rows);
    row_count = TRAFFIC_ROWS;
    if (traces != NULL) {
        rows[row_count++] = traces_read(traces, POD_PART_FWH);
        rows[row_count++] = traces_read(traces, POD_PART_LPC);
    }
}

static void free_rows(void)
{
    for (size_t i = 0; i < row_count; i++) {
        row_free(&rows[i]);
    }
    traffic_free();
    ways_free();
    base_image_free();
}

int main(int argc, char **argv)
{
    struct options options;
    if (!take_options(argc, argv, &options)) {
        printf("usage: speed [--check] [--machine KIND] [--flags FLAGS] [TRACES]\n");
        return 2;
    }
    new_rows(options.traces);
    for (size_t i = 0; i < row_count; i++) {
        ways_check(&rows[i]);
    }
    if (options.check) {
        waits_check();
    } else if (sides.failed == 0) {
        print_head(&options);
        print_tables();
    }
    if (options.check || sides.failed != 0) {
        printf("speed: %" PRIu32 " passed, %" PRIu32 " failed\n", sides.passed, sides.failed);
    }
    free_rows();
    return sides.failed == 0 ? 0 : 1;
}
