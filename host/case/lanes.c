/* Stepping and running a scenario, and comparing. */
#include "case/lanes.h"

#include "case/refusals.h"
#include "case/runs.h"
#include "case/sheets.h"
#include "test/same_device.h"

#include <string.h>

static const char *how(const struct lane *lane)
{
    return lane->in_place ? "stepped in place" : "stepped";
}

/* A register or a count that is expected, as found in one of the ways. */
static void look_at_number(const struct check *check, const char *what, uint32_t found, struct judge *judge)
{
    static const char *const names[] = {
        [CHECK_STATUS] = "status", [CHECK_MARKS] = "marks", [CHECK_SAMPLES] = "samples"
    };
    char name[64];
    (void)snprintf(name, sizeof name, "%s (%s)", names[check->kind], what);
    judge_same(judge, check->line, name, check->value, found);
}

static void look_at_fill(const struct check *check, const char *what, const uint8_t *image, struct judge *judge)
{
    judge->checks++;
    for (uint32_t place = check->place; place < check->place + check->length; place++) {
        if (image[place] != check->value) {
            judge_fail(judge, check->line, "image at %05Xh (%s): expected %02Xh, found %02Xh", (unsigned)place, what,
                       (unsigned)check->value, image[place]);
            return;
        }
    }
}

/* Settles; gives the laid samples that this has taken in. In place these are clocked one by one. */
static uint32_t settle(const struct check *check, struct lane *lane, struct judge *judge)
{
    if (check->laid && lane->in_place) {
        return 0;
    }
    const struct pod_settled settled = pod_settle(lane->device, lane->image, POD_IMAGE_BYTES, check->sample,
                                                  check->limit);
    judge_same(judge, check->line, "number of settle", check->value, settled.number);
    judge_same(judge, check->line, "count of settle", check->count, settled.count);
    lane->device = settled.device;
    return check->laid ? check->count : 0;
}

static void set_times(const struct check *check, struct lane *lane, struct judge *judge)
{
    const struct power *times = &check->times;
    const struct pod_powered set = pod_set_times(lane->device, times->program, times->slice, times->pause);
    judge_same(judge, check->line, "number of set times", check->value, set.number);
    lane->device = set.device;
}

/* One thing to be looked at while stepping; gives the samples that it has taken in itself. */
static uint32_t look(const struct scenario *scenario, const struct check *check, struct lane *lane, struct judge *judge)
{
    switch (check->kind) {
    case CHECK_STATUS:
        look_at_number(check, how(lane), pod_status(lane->device), judge);
        break;
    case CHECK_MARKS:
        look_at_number(check, how(lane), pod_marks(lane->device), judge);
        break;
    case CHECK_SAMPLES:
        look_at_number(check, "laid", check->at, judge);
        break;
    case CHECK_FILL:
        look_at_fill(check, how(lane), lane->image, judge);
        break;
    case CHECK_SETTLE:
        return settle(check, lane, judge);
    case CHECK_SET_TIMES:
        set_times(check, lane, judge);
        break;
    case CHECK_SHEET: /* has nothing to do with a lane */
        break;
    case CHECK_VIEW:
        view_check(check, lane, judge);
        break;
    case CHECK_REFUSAL:
        refusal_check(scenario, check, lane, judge);
        break;
    }
    return 0;
}

/* One clock; gives the number. */
static uint32_t take_clock(struct lane *lane, uint16_t sample, int *answer)
{
    if (lane->in_place) {
        const struct pod_clocked clocked = pod_clock(&lane->device, lane->image, POD_IMAGE_BYTES, sample);
        *answer = (int)clocked.answer;
        return clocked.number;
    }
    const struct pod_stepped stepped = pod_step(lane->device, lane->image, POD_IMAGE_BYTES, sample);
    *answer = (int)stepped.answer;
    lane->device = stepped.device;
    return stepped.number;
}

/* Steps the whole scenario, looking at things where they are stated. */
static void walk(const struct scenario *scenario, struct lane *lane, struct judge *judge)
{
    const struct power *power = &scenario->power;
    const struct pod_powered up = power_up(power);
    size_t next = 0;
    memcpy(lane->image, scenario->image, sizeof lane->image);
    lane->device = up.device;
    if (!judge_same(judge, 1, "number of power up", POD_DONE, up.number)) {
        return;
    }
    for (uint32_t i = 0;;) {
        while (next < scenario->check_count && scenario->checks[next].at == i) {
            for (uint32_t taken = look(scenario, &scenario->checks[next++], lane, judge); taken > 0; taken--) {
                lane->answers[i++] = SCRIPT_UNCHECKED;
            }
        }
        if (i >= scenario->script.count) {
            return;
        }
        const struct laid *laid = &scenario->script.laid[i];
        uint32_t number = take_clock(lane, laid->sample, &lane->answers[i]);
        if (number != POD_DONE) {
            judge_fail(judge, laid->line, "number of sample %u (%s): expected 0, found %u", (unsigned)i, how(lane),
                       (unsigned)number);
            return;
        }
        i++;
    }
}

/* What run can be asked in the middle of a scenario: it is run up to there. */
static void look_by_run(const struct scenario *scenario, const struct check *check, struct judge *judge)
{
    bool can = check->kind == CHECK_STATUS || check->kind == CHECK_MARKS || check->kind == CHECK_SAMPLES ||
               check->kind == CHECK_FILL;
    if (!can || !check->by_run) {
        return;
    }
    const struct ran ran = run_first(scenario, check->at, check->at);
    judge_same(judge, check->line, "number of run", POD_DONE, ran.report.number);
    if (check->kind == CHECK_STATUS) {
        look_at_number(check, "run", ran.report.status, judge);
    } else if (check->kind == CHECK_MARKS) {
        look_at_number(check, "run", ran.report.marks, judge);
    } else if (check->kind == CHECK_SAMPLES) {
        look_at_number(check, "run", ran.report.samples, judge);
    } else {
        look_at_fill(check, "run", ran.image, judge);
    }
}

/* The answers of all ways, up to the first that differs. */
static void compare_answers(const struct scenario *scenario, const struct lane *stepped, const struct lane *in_place,
                            const struct ran *ran, struct judge *judge)
{
    bool same = true;
    for (uint32_t i = 0; i < scenario->script.count && same; i++) {
        const struct laid *laid = &scenario->script.laid[i];
        int found = in_place->answers[i];
        int step = stepped->answers[i] != SCRIPT_UNCHECKED ? stepped->answers[i] : found;
        int run = i < scenario->run_until ? ran->answers[i] : found;
        bool wanted = laid->answer == SCRIPT_UNCHECKED || laid->answer == found;
        same = step == found && run == found && wanted;
        judge->checks++;
        if (!wanted) {
            judge_fail(judge, laid->line, "answer to sample %u (%04Xh): expected %02Xh, found %02Xh", (unsigned)i,
                       laid->sample, (unsigned)laid->answer, (unsigned)found);
        } else if (!same) {
            judge_fail(judge, laid->line,
                       "answer to sample %u (%04Xh): expected one, found %02Xh by run, %02Xh by step, %02Xh in place",
                       (unsigned)i, laid->sample, (unsigned)run, (unsigned)step, (unsigned)found);
        }
    }
}

static void compare_ends(const struct scenario *scenario, const struct lane *stepped, const struct lane *in_place,
                         const struct ran *ran, struct judge *judge)
{
    unsigned line = scenario->lines;
    judge_same(judge, line, "samples of run", scenario->run_until, ran->report.samples);
    judge_unwritten(judge, line, ran->answers + scenario->run_until, SPARE);
    if (!scenario->run_stopped) {
        judge_same(judge, line, "status: run against step", pod_status(stepped->device), ran->report.status);
        judge_same(judge, line, "marks: run against step", pod_marks(stepped->device), ran->report.marks);
        judge_holds(judge, line, memcmp(ran->image, stepped->image, sizeof stepped->image) == 0,
                    "the same image from run and step", "images that differ");
    }
    judge_holds(judge, line, memcmp(stepped->image, in_place->image, sizeof stepped->image) == 0,
                "the same image from step and step in place", "images that differ");
    judge_holds(judge, line, same_device(&stepped->device, &in_place->device),
                "the same device from step and step in place", "devices that differ");
}

void lanes_carry_out(const struct scenario *scenario, struct judge *judge)
{
    static struct lane stepped, in_place;
    in_place.in_place = true;
    for (size_t i = 0; i < scenario->check_count; i++) {
        if (scenario->checks[i].kind == CHECK_SHEET) {
            sheet_check(&scenario->checks[i], judge);
        }
    }
    if (scenario->number != POD_DONE) {
        const struct check check = { .at = (uint32_t)scenario->script.count,
                                     .line = scenario->lines,
                                     .value = scenario->number };
        const struct wish wish = { .image_length = POD_IMAGE_BYTES, .power = scenario->power };
        run_refused(scenario, &check, &wish, judge);
        return;
    }
    walk(scenario, &in_place, judge);
    walk(scenario, &stepped, judge);
    if (judge->failed) {
        return;
    }
    for (size_t i = 0; i < scenario->check_count; i++) {
        look_by_run(scenario, &scenario->checks[i], judge);
    }
    const struct ran ran = run_first(scenario, scenario->run_until, scenario->run_until + SPARE);
    if (judge_same(judge, scenario->lines, "number of run", POD_DONE, ran.report.number)) {
        compare_answers(scenario, &stepped, &in_place, &ran, judge);
        compare_ends(scenario, &stepped, &in_place, &ran, judge);
    }
}
