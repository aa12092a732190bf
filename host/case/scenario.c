/* Reading a scenario. */
#include "case/scenario.h"

#include <stdlib.h>
#include <string.h>

static uint32_t samples_of(const struct scenario *scenario)
{
    return (uint32_t)scenario->script.count;
}

/* A further check at this place. Where there is no memory for it, the line is wrong and a spare one is given. */
static struct check *add_check(struct scenario *scenario, struct words *words, enum check_kind kind)
{
    static struct check spare;
    struct check *check = &spare;
    if (scenario->check_count == scenario->check_room) {
        size_t room = 2 * scenario->check_room + 16;
        struct check *checks = realloc(scenario->checks, room * sizeof *checks);
        if (checks != NULL) {
            scenario->checks = checks;
            scenario->check_room = room;
        }
    }
    if (scenario->check_count < scenario->check_room) {
        check = &scenario->checks[scenario->check_count++];
    } else {
        words_wrong(words, "expected memory for a further expectation, found none left");
    }
    *check = (struct check){ .kind = kind,
                             .at = samples_of(scenario),
                             .line = words->line,
                             .by_run = !scenario->run_stopped,
                             .sample = scenario->script.idle };
    return check;
}

static void before_samples(const struct scenario *scenario, struct words *words)
{
    if (samples_of(scenario) > 0) {
        words_wrong(words, "expected what power-up needs before the first sample, found it after");
    }
}

static void take_times(struct scenario *scenario, struct words *words)
{
    before_samples(scenario, words);
    power_take_times(&scenario->power, words);
}

static void take_image(struct scenario *scenario, struct words *words)
{
    before_samples(scenario, words);
    if (words_take_if(words, "fill")) {
        memset(scenario->image, (int)words_hex(words, 0xFF), POD_IMAGE_BYTES);
        return;
    }
    words_must(words, "at");
    uint32_t place = words_hex(words, POD_IMAGE_BYTES - 1);
    while (words_more(words) && place < POD_IMAGE_BYTES) {
        scenario->image[place++] = (uint8_t)words_hex(words, 0xFF);
    }
}

static void take_answers(struct scenario *scenario, struct words *words)
{
    uint8_t bytes[WORDS_MOST];
    words_must(words, "=");
    size_t count = words_bytes(words, bytes, sizeof bytes);
    if (count > scenario->script.count) {
        words_wrong(words, "expected answers to samples, found more than there are samples");
        return;
    }
    for (size_t i = 0; i < count; i++) {
        int *answer = &scenario->script.laid[scenario->script.count - count + i].answer;
        if (*answer != SCRIPT_UNCHECKED && *answer != bytes[i]) {
            words_wrong(words, "expected answer %zu to be %02X, as its frame says, found %02X", i + 1,
                        (unsigned)*answer, bytes[i]);
        }
        *answer = bytes[i];
    }
}

static void take_settle(struct scenario *scenario, struct words *words)
{
    struct check *check = add_check(scenario, words, CHECK_SETTLE);
    check->limit = words_decimal(words, UINT32_MAX);
    words_must(words, "=");
    check->value = words_decimal(words, UINT32_MAX);
    check->count = words_decimal(words, UINT32_MAX);
    if (check->count > SAMPLES_MOST - samples_of(scenario)) {
        scenario->run_stopped = true;
        return;
    }
    check->laid = true;
    script_idle(&scenario->script, words, check->count);
}

static void take_set(struct scenario *scenario, struct words *words)
{
    struct check *check = add_check(scenario, words, CHECK_SET_TIMES);
    words_must(words, "times");
    power_take_times(&check->times, words);
    words_must(words, "=");
    check->value = words_decimal(words, UINT32_MAX);
    if (check->value == POD_DONE) {
        scenario->run_stopped = true;
    }
}

static void take_expect(struct scenario *scenario, struct words *words)
{
    bool byte = strcmp(words_look(words), "byte") == 0;
    if (words_take_if(words, "number")) {
        scenario->number = words_decimal(words, UINT32_MAX);
    } else if (words_take_if(words, "status")) {
        add_check(scenario, words, CHECK_STATUS)->value = words_hex(words, 0xFF);
    } else if (words_take_if(words, "marks")) {
        add_check(scenario, words, CHECK_MARKS)->value = words_hex(words, 0xFFFF);
    } else if (words_take_if(words, "samples")) {
        add_check(scenario, words, CHECK_SAMPLES)->value = words_decimal(words, UINT32_MAX);
    } else if (words_take_if(words, byte ? "byte" : "fill")) {
        struct check *check = add_check(scenario, words, CHECK_FILL);
        check->place = words_hex(words, POD_IMAGE_BYTES - 1);
        check->length = byte ? 1 : words_decimal(words, POD_IMAGE_BYTES - check->place);
        check->value = words_hex(words, 0xFF);
    } else {
        words_wrong(words, "expected number, status, marks, samples, byte or fill, found %s", words_found(words));
    }
}

static void take_sheet(struct scenario *scenario, struct words *words)
{
    struct check *check = add_check(scenario, words, CHECK_SHEET);
    wish_take_sheet(&check->wish, &scenario->power, words);
}

static void take_view(struct scenario *scenario, struct words *words)
{
    struct check *check = add_check(scenario, words, CHECK_VIEW);
    wish_take_view(&check->wish, &scenario->power, words);
}

static void take_refuse(struct scenario *scenario, struct words *words)
{
    struct check *check = add_check(scenario, words, CHECK_REFUSAL);
    check->value = words_decimal(words, POD_STILL_BUSY);
    wish_take_refusal(&check->wish, &scenario->power, words);
}

/* A line that is none of traffic. */
static void take_own(struct scenario *scenario, struct words *words)
{
    static const struct {
        const char *name;
        void (*take)(struct scenario *scenario, struct words *words);
        bool states;
    } lines[] = { { "times", take_times, false },  { "image", take_image, false }, { "answers", take_answers, true },
                  { "settle", take_settle, true }, { "set", take_set, true },      { "expect", take_expect, true },
                  { "sheet", take_sheet, true },   { "view", take_view, true },    { "refuse", take_refuse, true } };
    for (size_t i = 0; i < sizeof lines / sizeof lines[0]; i++) {
        if (words_take_if(words, lines[i].name)) {
            scenario->stated |= lines[i].states;
            lines[i].take(scenario, words);
            words_end(words);
            return;
        }
    }
    words_wrong(words, "expected a line of a scenario, found %s", words_found(words));
}

static void take_line(struct scenario *scenario, struct words *words)
{
    /* a frame states the answers that it wants */
    bool frame = strcmp(words_look(words), "read") == 0 || strcmp(words_look(words), "write") == 0;
    scenario->stated |= frame;
    if (!script_take(&scenario->script, words)) {
        take_own(scenario, words);
    }
    scenario->power.part = scenario->script.part;
    scenario->power.straps = scenario->script.straps;
    if (!scenario->run_stopped) {
        scenario->run_until = samples_of(scenario);
    }
}

static void read_file(struct scenario *scenario, FILE *file, struct judge *judge)
{
    struct words words;
    bool ruled = getc(file) == '#' && getc(file) == ' ';
    rewind(file);
    if (!ruled) {
        judge_fail(judge, 1, "expected the rule in the first line, after \"# \", found none");
    }
    words_begin(&words);
    while (words_next(&words, file)) {
        if (!words_are_wrong(&words)) {
            take_line(scenario, &words);
        }
        if (words_are_wrong(&words)) {
            judge_fail(judge, words.line, "not understood: %s", words.wrong);
        }
    }
    scenario->lines = words.line;
    if (ferror(file)) {
        judge_fail(judge, words.line, "expected a file of text, found that it cannot be read");
    }
}

void scenario_read(struct scenario *scenario, const char *path, struct judge *judge)
{
    *scenario = (struct scenario){ .power = power_plain(), .image = calloc(1, POD_IMAGE_BYTES + SPARE) };
    script_begin(&scenario->script, SAMPLES_MOST);
    FILE *file = fopen(path, "r");
    if (file == NULL || scenario->image == NULL) {
        judge_fail(judge, 0, "expected %s, found none", file == NULL ? "a file to read" : "memory for an image");
    } else {
        memset(scenario->image, 0xFF, POD_IMAGE_BYTES);
        read_file(scenario, file, judge);
    }
    if (file != NULL) {
        (void)fclose(file);
    }
    if (!judge->failed && !scenario->stated) {
        judge_fail(judge, scenario->lines, "expected something that is to be found, found no such line");
    }
}

void scenario_free(struct scenario *scenario)
{
    script_free(&scenario->script);
    free(scenario->image);
    free(scenario->checks);
    scenario->image = NULL;
    scenario->checks = NULL;
}
