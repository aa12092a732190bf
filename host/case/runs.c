/* Running a scenario, and runs that are refused. */
#include "case/runs.h"

#include <string.h>

static uint8_t image[POD_IMAGE_BYTES + SPARE];
static uint8_t stream[POD_STREAM_BYTES + SPARE];
static uint8_t answers[SAMPLES_MOST + SPARE];

/* Lays the samples as a stream and makes image and answers as they are before a run. */
static void make_ready(const struct scenario *scenario, uint32_t samples)
{
    memset(stream, 0, sizeof stream);
    for (size_t i = 0; i < samples; i++) {
        sample_put(stream, i, scenario->script.laid[i].sample);
    }
    memset(answers, UNWRITTEN, sizeof answers);
    memcpy(image, scenario->image, sizeof image);
}

struct ran run_first(const struct scenario *scenario, uint32_t samples, uint32_t room)
{
    const struct power *power = &scenario->power;
    struct ran ran = { .image = image, .answers = answers };
    make_ready(scenario, samples);
    ran.report = pod_run(image, POD_IMAGE_BYTES, stream, 2 * (size_t)samples, answers, room, power->part, power->straps,
                         power->program, power->slice, power->pause);
    return ran;
}

void run_refused(const struct scenario *scenario, const struct check *check, const struct wish *wish,
                 struct judge *judge)
{
    const struct power *power = &wish->power;
    uint32_t stream_length = wish->stream_said ? wish->stream_length : 2 * check->at;
    uint32_t room = wish->room_said ? wish->room : check->at;
    make_ready(scenario, check->at);
    if (wish->class_3) {
        sample_put(stream, wish->class_3_at, sample_at(stream, wish->class_3_at) | POD_SAMPLE_VOLTAGE);
    }
    const struct pod_report report = pod_run(image, wish->image_length, stream, stream_length, answers, room,
                                             power->part, power->straps, power->program, power->slice, power->pause);
    judge_same(judge, check->line, "number of run", check->value, report.number);
    judge_same(judge, check->line, "samples of the refused run", 0, report.samples);
    judge_same(judge, check->line, "status of the refused run", 0, report.status);
    judge_same(judge, check->line, "marks of the refused run", 0, report.marks);
    judge_holds(judge, check->line, memcmp(image, scenario->image, sizeof image) == 0,
                "the image as it was before the refused run", "another");
    judge_unwritten(judge, check->line, answers, sizeof answers);
}
