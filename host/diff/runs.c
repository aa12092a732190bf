/* Runs, compared with those of the model and with the steps of a trace. */
#include "diff/runs.h"

#include "bus/pins.h"
#include "diff/choices.h"
#include "diff/counts.h"
#include "diff/images.h"
#include "diff/random.h"
#include "diff/sides.h"
#include "diff/trace.h"
#include "pod.h"

#include <stddef.h>
#include <stdint.h>
#include <string.h>

enum { SHORT = 300 /* samples of a short run, at most */ };

static uint8_t answers[MAX_SAMPLES + SPARE], model_answers[MAX_SAMPLES + SPARE];

/* Samples that mostly keep the part out of reset, one of them of class 3 if any. */
static void lay_short(uint8_t *stream, uint32_t samples)
{
    const uint32_t class_3 = one_in(4) && samples > 0 ? rnd(samples) : UINT32_MAX;
    for (uint32_t i = 0; i < samples; i++) {
        unsigned low = rnd_byte();
        if (!one_in(10)) {
            low |= POD_SAMPLE_RP | POD_SAMPLE_INIT;
        }
        const uint16_t sample = (uint16_t)(low | (unsigned)rnd_byte() << 8);
        sample_put(stream, i, sample_with_voltage(sample, i == class_3 ? 3 : POD_VOLTAGE_NORMAL));
    }
}

static void expect_short_run(const struct model_report *want, const struct pod_report *got)
{
    expect_number("number of pod_run", want->number, got->number);
    expect("samples of pod_run", want->samples, got->samples);
    expect("status of pod_run", want->status, got->status);
    expect("marks of pod_run", want->marks, got->marks);
    if (memcmp(answers, model_answers, SHORT + SPARE) != 0) {
        departure("answers of a short pod_run");
    }
    if (memcmp(images.run, images.model_run, POD_IMAGE_BYTES + SPARE) != 0) {
        departure("image of a short pod_run");
    }
    if (want->number == POD_DONE) {
        tally(RUNS);
        if (want->samples == 0) {
            tally(RUNS_EMPTY);
        }
        memcpy(images.run, images.base, POD_IMAGE_BYTES + SPARE);
        memcpy(images.model_run, images.base, POD_IMAGE_BYTES + SPARE);
    } else if (memcmp(images.run, images.base, POD_IMAGE_BYTES + SPARE) != 0) {
        departure("a refused pod_run changed the image");
    }
}

void try_run(void)
{
    const size_t image_length = one_in(6) ? POD_IMAGE_BYTES - 1 + 2 * (size_t)rnd(2) : POD_IMAGE_BYTES;
    const uint32_t part = maybe_no_part(4);
    const uint32_t straps = maybe_no_straps(part, 4);
    const struct model_times t = maybe_bad_times(6);
    const uint32_t samples = one_in(4) ? 0 : rnd(SHORT);
    uint8_t lent[2 * SHORT + SPARE] = { 0 };
    const uint8_t *stream = lent;
    lay_short(lent, samples);
    size_t length = 2 * (size_t)samples + one_in(6);
    size_t room = one_in(5) ? samples - (samples > 0) : samples + rnd(3);
    if (one_in(12)) {
        stream = trace.stream;
        length = POD_STREAM_BYTES + 1 + rnd(2);
        room = MAX_SAMPLES + SPARE;
    }

    memset(answers, FILLER, SHORT + SPARE);
    memset(model_answers, FILLER, SHORT + SPARE);
    const struct model_report want =
        model_run(images.model_run, image_length, stream, length, model_answers, room, part, straps, t);
    const struct pod_report got = pod_run(images.run, image_length, stream, length, answers, room, part, straps,
                                          t.program, t.slice, t.pause);
    expect_short_run(&want, &got);
    if (want.number == POD_REFUSED_STRAPS) {
        tally(part > POD_PART_LPC ? RUN_NO_PART : part == POD_PART_LPC ? RUN_LPC_STRAPS : RUN_FWH_STRAPS);
    }
}

/* An answer of run that is not the one of the step: the samples up to there are laid out for the departure. */
static _Noreturn void wrong_answer(uint32_t index, uint8_t want)
{
    for (trace.done = 0; trace.done <= index && trace.done < MAX_SAMPLES; trace.done++) {
        trace.last[trace.done % LAST_SAMPLES] = sample_at(trace.stream, trace.done);
    }
    departure("answer of pod_run: expected %02Xh, found %02Xh", (unsigned)want, (unsigned)answers[index]);
}

static void run_library(void)
{
    const struct model_times *t = &trace.times;
    const uint32_t extra = rnd(8);
    memset(answers, FILLER, sizeof answers);
    const struct pod_report got =
        pod_run(images.run, POD_IMAGE_BYTES, trace.stream, 2 * (size_t)trace.done, answers,
                (size_t)trace.done + extra, trace.part, trace.straps, t->program, t->slice, t->pause);
    expect_number("number of pod_run", POD_DONE, got.number);
    expect("samples of pod_run", trace.done, got.samples);
    for (uint32_t i = 0; i < trace.done + SPARE; i++) {
        const uint8_t want = i < trace.done ? trace.answers[i] : FILLER;
        if (answers[i] != want) {
            wrong_answer(i, want);
        }
    }
    expect("status of pod_run", model_status(&model), got.status);
    expect("marks of pod_run", model_marks(&model), got.marks);
    expect_image("pod_run", images.run, 0, POD_IMAGE_BYTES + SPARE);
    image_restore(images.run, trace.dirty);
}

static void run_model(void)
{
    memset(model_answers, FILLER, sizeof model_answers);
    const struct model_report own = model_run(images.model_run, POD_IMAGE_BYTES, trace.stream, 2 * (size_t)trace.done,
                                              model_answers, trace.done, trace.part, trace.straps, trace.times);
    if (own.number != POD_DONE || own.samples != trace.done || own.status != model_status(&model) ||
        own.marks != model_marks(&model) || memcmp(model_answers, answers, sizeof answers) != 0) {
        departure("the model's run differs from its steps");
    }
    expect_image("the model's run", images.model_run, 0, POD_IMAGE_BYTES + SPARE);
    image_restore(images.model_run, trace.dirty);
}

void run_whole_trace(void)
{
    run_library();
    run_model();
    tally(RUNS);
    tally(trace.part == POD_PART_LPC ? RUNS_WHOLE_LPC : RUNS_WHOLE_FWH);
}
