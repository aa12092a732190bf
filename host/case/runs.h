/* Putting samples of a scenario through run, in one call. */
#ifndef CASE_RUNS_H
#define CASE_RUNS_H

#include "case/judge.h"
#include "case/scenario.h"

/* The report, and the image and the answers as run left them: UNWRITTEN behind the last answer. Both are there until
 * the next run. */
struct ran {
    struct pod_report report;
    const uint8_t *image;
    const uint8_t *answers;
};

/* Runs the first samples of a scenario from power-up, with room for so many answers. */
struct ran run_first(const struct scenario *scenario, uint32_t samples, uint32_t room);

/* Runs the first `check->at` samples as wished: this is to be refused with `check->value` and to change nothing. */
void run_refused(const struct scenario *scenario, const struct check *check, const struct wish *wish,
                 struct judge *judge);

#endif
