/* Reading a harness track and laying it over a stream. */
#include "bay/track.h"

#include "bay/files.h"
#include "bay/settings.h"
#include "bay/text.h"
#include "bay/trouble.h"
#include "bus/pins.h"

#include <stdbool.h>
#include <stdlib.h>
#include <string.h>

enum { TRACK_MOST = 1 << 20 };

/* What is left of one line, whose words are ended by zero bytes in place of blanks. */
struct rest {
    char *at;
    char *end;
};

static char *next_word(struct rest *rest)
{
    while (rest->at < rest->end && strchr(" \t\r", *rest->at) != NULL) {
        rest->at++;
    }
    if (rest->at >= rest->end || *rest->at == '#' || *rest->at == '\0') {
        return NULL;
    }
    char *word = rest->at;
    while (rest->at < rest->end && strchr(" \t\r#", *rest->at) == NULL) {
        rest->at++;
    }
    if (rest->at < rest->end && *rest->at == '#') {
        rest->end = rest->at;
    }
    *rest->at++ = '\0';
    return word;
}

/* One setting, as `wp low`. The harness holds write protect, top block lock and the voltage; no other pin. */
static bool take_setting(struct pull *pull, const char *name, const char *value)
{
    unsigned mask = 0;
    unsigned bits = 0;
    if (value == NULL) {
        return false;
    }
    const struct pin *pin = pin_named(name);
    bool held = pin != NULL && (pin->mask & (POD_SAMPLE_WP | POD_SAMPLE_TBL)) != 0;
    if (held && (strcmp(value, "high") == 0 || strcmp(value, "low") == 0)) {
        mask = pin->mask;
        bits = value[0] == 'h' ? mask : 0;
    }
    uint32_t voltage = 0;
    if (strcmp(name, "voltage") == 0 && number_take(value, &voltage) && voltage <= 3) {
        mask = POD_SAMPLE_VOLTAGE;
        bits = voltage << POD_SAMPLE_VOLTAGE_SHIFT;
    }
    pull->mask = (uint16_t)(pull->mask | mask);
    pull->value = (uint16_t)sample_set(pull->value, mask, bits);
    return mask != 0;
}

/* One line. Gives 0 for a blank one, 1 for a pull, -1 for what is neither. */
static int take_line(struct pull *pull, struct rest rest)
{
    *pull = (struct pull){ 0, 0, 0 };
    const char *word = next_word(&rest);
    if (word == NULL) {
        return 0;
    }
    const char *clock = next_word(&rest);
    if (strcmp(word, "at") != 0 || clock == NULL || !number_take(clock, &pull->clock)) {
        return -1;
    }
    while ((word = next_word(&rest)) != NULL) {
        if (!take_setting(pull, word, next_word(&rest))) {
            return -1;
        }
    }
    return pull->mask == 0 ? -1 : 1;
}

static int bad_line(const char *path, size_t number, const char *line)
{
    return trouble(TROUBLE_DATA, "%s, line %zu, is no line of a harness track\n"
                                 "  expected  at CLOCK, then wp high|low, tbl high|low or voltage 0..3; clocks never fall\n"
                                 "  found     %.60s\n"
                                 "  do        mend the line, as in: at 1200 wp low",
                   path, number, line);
}

static int take_lines(const char *path, char *text, struct track *out)
{
    size_t number = 1;
    for (char *line = text; *line != '\0'; number++) {
        size_t length = strcspn(line, "\n");
        char *next = line + length + (line[length] == '\n' ? 1 : 0);
        char shown[64] = "";
        memcpy(shown, line, length < sizeof shown - 1 ? length : sizeof shown - 1);
        line[length] = '\0';
        struct pull *pull = &out->pulls[out->count];
        int kind = take_line(pull, (struct rest){ line, line + length });
        bool falls = kind > 0 && out->count > 0 && pull->clock < pull[-1].clock;
        if (kind < 0 || falls) {
            return bad_line(path, number, shown);
        }
        out->count += kind > 0 ? 1U : 0U;
        line = next;
    }
    return 0;
}

/* At most one pull stands on a line. */
static size_t lines_in(const char *text)
{
    size_t lines = 1;
    for (; *text != '\0'; text++) {
        lines += *text == '\n' ? 1U : 0U;
    }
    return lines;
}

int track_read(const char *path, struct track *out)
{
    struct bytes file;
    *out = (struct track){ NULL, 0 };
    int status = file_read(path, TRACK_MOST, &file);
    if (status != 0) {
        return status;
    }
    if (file.more || memchr(file.at, '\0', file.length) != NULL) {
        status = trouble(TROUBLE_DATA, "%s is no harness track\n"
                                       "  expected  text of at most a megabyte\n"
                                       "  found     %s\n"
                                       "  do        name the track file",
                         path, file.more ? "more than that" : "bytes that are no text");
    } else {
        char *text = must_have(file.length + 1);
        memcpy(text, file.at, file.length);
        text[file.length] = '\0';
        out->pulls = must_have(lines_in(text) * sizeof out->pulls[0]);
        status = take_lines(path, text, out);
        free(text);
    }
    bytes_free(&file);
    return status;
}

void track_lay(const struct track *track, uint8_t *stream, size_t samples)
{
    unsigned mask = 0;
    uint16_t value = 0;
    size_t next = 0;
    for (size_t clock = 0; clock < samples; clock++) {
        for (; next < track->count && track->pulls[next].clock <= clock; next++) {
            mask |= track->pulls[next].mask;
            value = sample_set(value, track->pulls[next].mask, track->pulls[next].value);
        }
        sample_put(stream, clock, sample_set(sample_at(stream, clock), mask, value));
    }
}

void track_free(struct track *track)
{
    free(track->pulls);
    *track = (struct track){ NULL, 0 };
}
