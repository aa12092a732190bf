/* case: carries out scenarios, each a file in the language of case/scenario.h, and counts those that hold. */
#include "case/judge.h"
#include "case/lanes.h"
#include "case/scenario.h"

#include <stdio.h>

static bool holds(const char *path, struct judge *judge)
{
    struct scenario scenario;
    judge_begin(judge, path);
    scenario_read(&scenario, path, judge);
    if (!judge->failed) {
        lanes_carry_out(&scenario, judge);
    }
    scenario_free(&scenario);
    return !judge->failed;
}

int main(int argc, char **argv)
{
    struct judge judge = { .checks = 0 };
    unsigned passed = 0, failed = 0;
    for (int i = 1; i < argc; i++) {
        if (holds(argv[i], &judge)) {
            passed++;
        } else {
            failed++;
            printf("FAILED %s\n", argv[i]);
        }
    }
    printf("case: %lu checks\n", judge.checks);
    printf("case: %u passed, %u failed\n", passed, failed);
    return passed == 0 || failed != 0;
}
