/* bay run: one stream on a copy of one image, and what became of it. */
#include "bay/commands.h"
#include "bay/load.h"
#include "bay/options.h"
#include "bay/text.h"
#include "bay/words.h"

/* Where the results go; null where they are not wanted. */
struct results {
    const char *answers;
    const char *save;
};

static int check_results(const struct results *to)
{
    const char *const both[] = { to->answers, to->save };
    const struct named outputs[] = { { "--answers", to->answers }, { "--save", to->save } };
    int status = one_standard("output", both, 2);
    return status == 0 ? outputs_apart(outputs, 2) : status;
}

static int run_and_tell(struct load *load, const struct results *to)
{
    struct pod_report report;
    int status = load_run(load, &report);
    if (status != 0) {
        return status;
    }
    struct text text = { NULL, 0, 0 };
    text_add(&text, "samples  %s done\n", counted(report.samples).text);
    words_status(&text, report.status);
    words_blocks(&text, report.marks, blocks_changed(load->before.at, load->after));
    const struct output outputs[] = {
        { .path = to->answers, .at = load->answers, .length = report.samples },
        { .path = to->save, .at = load->after, .length = load->before.length },
        { .at = text.bytes, .length = text.length, .report = true },
    };
    status = deliver(outputs, sizeof outputs / sizeof outputs[0]);
    text_free(&text);
    return status;
}

int command_run(int count, char **words)
{
    struct load load = { .image = NULL };
    struct settings_options from = { .part = NULL };
    struct results to = { NULL, NULL };
    const struct option options[] = {
        { "--part", &from.part, NULL },   { "--straps", &from.straps, NULL },  { "--times", &from.times, NULL },
        { "--sheet", &from.sheet, NULL }, { "--answers", &to.answers, NULL }, { "--save", &to.save, NULL },
    };
    const struct place places[] = { { "IMAGE", &load.image }, { "STREAM", &load.stream } };
    const struct line line = { options, sizeof options / sizeof options[0], places, 2 };
    int status = options_take(&line, count, words);
    if (status == 0) {
        status = check_results(&to);
    }
    if (status == 0) {
        status = load_begin(&load, &from);
    }
    if (status == 0) {
        status = run_and_tell(&load, &to);
    }
    load_free(&load);
    return status;
}
