/* bay trace: every frame of a stream in words, and the run as a waveform if that is wanted. */
#include "bay/commands.h"
#include "bay/load.h"
#include "bay/options.h"
#include "bay/text.h"
#include "bay/trouble.h"
#include "bay/vcd.h"
#include "bay/words.h"
#include "bus/frames.h"
#include "bus/pins.h"

#include <string.h>

/* What the trace holds from clock to clock. acted: the status on either side of the clock on which a write acts. */
struct tracer {
    const struct settings *settings;
    struct text text;
    struct watched watched;
    size_t began;
    uint16_t last;
    struct {
        bool seen;
        uint32_t before;
        uint32_t after;
    } acted;
};

/* One clock as it happened. */
struct happened {
    size_t clock;
    struct seen seen;
    uint32_t before;
    uint32_t after;
};

static void tell_pins(struct tracer *tracer, const struct happened *now)
{
    struct brief changed = brief_pins(now->seen.sample, now->clock == 0 ? NULL : &tracer->last);
    if (changed.text[0] != '\0') {
        text_add(&tracer->text, "clock %6zu  pins   %s\n", now->clock, changed.text);
    }
    tracer->last = now->seen.sample;
}

/* What the status tells of the write. */
static void tell_act(struct tracer *tracer)
{
    if (!tracer->acted.seen) {
        return;
    }
    struct brief after = brief_status(tracer->acted.after);
    if (tracer->acted.before == tracer->acted.after) {
        text_add(&tracer->text, "; status stays %s", after.text);
    } else {
        text_add(&tracer->text, "; status %02Xh to %s", (unsigned)tracer->acted.before, after.text);
    }
}

/* An LPC frame that is over before its clock 2, or has another cycle type there, has only begun. */
static const char *kind_of(const struct frame *frame)
{
    if (!frame_has_direction(frame)) {
        return "begun";
    }
    return frame->write ? "write" : "read";
}

/* The frame that is over, from what was seen of it: `how` says how it ended. */
static void tell_frame(struct tracer *tracer, const char *how)
{
    const struct watched *watched = &tracer->watched;
    const struct frame *frame = &watched->frame;
    unsigned byte_at = frame->write ? FRAME_CLOCK_ACT : FRAME_CLOCK_READ + 1;
    bool whole_address = watched->clock >= frame_address_end(frame->part);
    text_add(&tracer->text, "clock %6zu  %-5s  ", tracer->began, kind_of(frame));
    text_add(&tracer->text, "%-28s  ", whole_address ? brief_address(tracer->settings, frame->address).text : "-");
    if (watched->clock >= byte_at && (frame->write || watched->answered)) {
        text_add(&tracer->text, "%02Xh  ", frame->byte);
    } else {
        text_add(&tracer->text, "-    ");
    }
    text_add(&tracer->text, "%s", how);
    tell_act(tracer);
    text_add(&tracer->text, "\n");
    tracer->watched.clock = 0;
    tracer->acted.seen = false;
}

static void tell_whole_frame(struct tracer *tracer)
{
    struct text how = { NULL, 0, 0 };
    const struct frame *frame = &tracer->watched.frame;
    if (tracer->watched.answered) {
        text_add(&how, "answered");
    } else if (!frame_has_direction(frame)) {
        text_add(&how, "dropped (cycle type %Xh)", frame->select);
    } else if (frame->part == POD_PART_LPC) {
        text_add(&how, "not answered (%s)", brief_stranger(tracer->settings, frame->address).text);
    } else {
        text_add(&how, "not answered (device select %u, size %u)", frame->select, frame->size);
    }
    tell_frame(tracer, how.bytes);
    text_free(&how);
}

static void tell_broken_frame(struct tracer *tracer, const char *cause)
{
    struct text how = { NULL, 0, 0 };
    text_add(&how, "%s on clock %u", cause, tracer->watched.clock + 1);
    tell_frame(tracer, how.bytes);
    text_free(&how);
}

/* Follows the bus through one clock; says whether a write acted on it. */
static bool follow_bus(struct tracer *tracer, const struct happened *now)
{
    struct watched *watched = &tracer->watched;
    uint16_t sample = now->seen.sample;
    bool reset = !sample_has(sample, POD_SAMPLE_RP) || !sample_has(sample, POD_SAMPLE_INIT);
    bool low = !sample_has(sample, POD_SAMPLE_FRAME);
    bool breaks = watched->clock != 0 && (reset || low);
    if (breaks) {
        tell_broken_frame(tracer, reset ? "reset" : "aborted");
    }
    if (reset) {
        return false;
    }
    if (low) {
        tracer->began = now->clock;
        if (!watch_begin(watched, tracer->settings->part, sample) && !breaks) {
            text_add(&tracer->text, "clock %6zu  start  %Xh begins no frame\n", now->clock, sample & POD_SAMPLE_LINES);
        }
        return false;
    }
    if (watched->clock == 0) {
        return false;
    }
    bool whole = watch_clock(watched, &now->seen);
    bool acts = watched->frame.write && watched->clock == FRAME_CLOCK_ACT;
    if (acts) {
        tracer->acted.seen = true;
        tracer->acted.before = now->before;
        tracer->acted.after = now->after;
    }
    if (whole) {
        tell_whole_frame(tracer);
    }
    return acts;
}

static void follow(struct tracer *tracer, const struct happened *now)
{
    tell_pins(tracer, now);
    bool acts = follow_bus(tracer, now);
    if (!acts && now->before != now->after) {
        text_add(&tracer->text, "clock %6zu  status %02Xh to %s\n", now->clock, (unsigned)now->before,
                 brief_status(now->after).text);
    }
}

/* Steps through the stream on the image as read, clock by clock. */
static int step_through(struct load *load, const struct pod_report *report, struct tracer *tracer, struct vcd *vcd)
{
    const struct settings *s = &load->settings;
    struct pod_powered up = pod_power_up(s->part, s->straps, s->program, s->slice, s->pause);
    struct pod_device device = up.device;
    uint32_t marks = 0;
    for (size_t clock = 0; clock < report->samples; clock++) {
        struct happened now = { .clock = clock, .before = pod_status(device) };
        now.seen.sample = sample_at(load->samples.at, clock);
        struct pod_clocked clocked = pod_clock(&device, load->before.at, load->before.length, now.seen.sample);
        if (up.number != POD_DONE || clocked.number != POD_DONE) {
            return refused(up.number != POD_DONE ? up.number : clocked.number, &(struct facts){ .image = load->image });
        }
        now.seen.answer = clocked.answer;
        now.after = pod_status(device);
        follow(tracer, &now);
        if (pod_marks(device) != marks) {
            marks = pod_marks(device);
            text_add(&tracer->text, "clock %6zu  spoiled blocks: %s\n", clock, brief_blocks(marks).text);
        }
        vcd_add(vcd, &now.seen, now.after);
    }
    if (tracer->watched.clock != 0) {
        tell_frame(tracer, "cut off by the end of the stream");
    }
    if (pod_status(device) != report->status || marks != report->marks ||
        memcmp(load->before.at, load->after, load->before.length) != 0) {
        return trouble(TROUBLE_SOFTWARE, "the clocks one by one and the run in one go disagree\n"
                                         "  expected  status %02Xh and spoiled blocks %s, as the run says\n"
                                         "  found     status %02Xh and spoiled blocks %s, or another image\n"
                                         "  do        report it with the files you used",
                       (unsigned)report->status, brief_blocks(report->marks).text, (unsigned)pod_status(device),
                       brief_blocks(marks).text);
    }
    return 0;
}

static int trace_and_tell(struct load *load, const char *vcd_path)
{
    struct pod_report report;
    struct tracer tracer = { .settings = &load->settings, .text = { NULL, 0, 0 } };
    struct vcd vcd;
    vcd_begin(&vcd);
    int status = load_run(load, &report);
    if (status == 0) {
        status = step_through(load, &report, &tracer, &vcd);
    }
    if (status == 0) {
        vcd_end(&vcd);
        text_add(&tracer.text, "end of the stream after %s clocks; status %s; spoiled blocks: %s\n",
                 counted(report.samples).text, brief_status(report.status).text, brief_blocks(report.marks).text);
        const struct output outputs[] = {
            { .path = vcd_path, .at = vcd.text.bytes, .length = vcd.text.length },
            { .at = tracer.text.bytes, .length = tracer.text.length, .report = true },
        };
        status = deliver(outputs, sizeof outputs / sizeof outputs[0]);
    }
    text_free(&tracer.text);
    text_free(&vcd.text);
    return status;
}

int command_trace(int count, char **words)
{
    struct load load = { .image = NULL };
    struct settings_options from = { .part = NULL };
    const char *vcd_path = NULL;
    const struct option options[] = {
        { "--part", &from.part, NULL },
        { "--straps", &from.straps, NULL },
        { "--times", &from.times, NULL },
        { "--sheet", &from.sheet, NULL },
        { "--vcd", &vcd_path, NULL },
    };
    const struct place places[] = { { "IMAGE", &load.image }, { "STREAM", &load.stream } };
    const struct line line = { options, sizeof options / sizeof options[0], places, 2 };
    int status = options_take(&line, count, words);
    if (status == 0) {
        status = outputs_apart(&(struct named){ "--vcd", vcd_path }, 1);
    }
    if (status == 0) {
        status = load_begin(&load, &from);
    }
    if (status == 0) {
        status = trace_and_tell(&load, vcd_path);
    }
    load_free(&load);
    return status;
}
