/* bay sheet: a bay sheet's thirteen bytes to words and back. */
#include "bay/commands.h"
#include "bay/files.h"
#include "bay/options.h"
#include "bay/settings.h"
#include "bay/text.h"
#include "bay/trouble.h"
#include "bay/words.h"
#include "pod.h"

#include <stdio.h>
#include <string.h>

enum { WORDS_MOST = 4096, FIELDS = 4 };

static int sheet_read(int count, char **words)
{
    const char *path = NULL;
    const struct place places[] = { { "SHEET", &path } };
    const struct line line = { NULL, 0, places, 1 };
    struct settings settings;
    int status = options_take(&line, count, words);
    if (status == 0) {
        status = settings_from_sheet(path, &settings);
    }
    if (status != 0) {
        return status;
    }
    struct text text = { NULL, 0, 0 };
    text_add(&text, "straps   %u\n"
                    "program  %u microseconds\n"
                    "slice    %u microseconds\n"
                    "pause    %u microseconds\n",
             (unsigned)settings.straps, (unsigned)settings.program, (unsigned)settings.slice, (unsigned)settings.pause);
    status = deliver(&(struct output){ .at = text.bytes, .length = text.length, .report = true }, 1);
    text_free(&text);
    return status;
}

static int bad_words(const char *path, const char *found)
{
    return trouble(TROUBLE_DATA, "%s does not say what a sheet holds\n"
                                 "  expected  four lines, as bay sheet read prints them: straps, program, slice, pause\n"
                                 "  found     %s\n"
                                 "  do        mend the words, as in: slice 3906 microseconds",
                   path, found);
}

/* One line of words into the field that it names. Gives the bit of the field, 0 for an empty line, or -1. */
static int take_field(char *line, struct settings *out)
{
    static const char *const names[FIELDS] = { "straps", "program", "slice", "pause" };
    uint32_t *const fields[FIELDS] = { &out->straps, &out->program, &out->slice, &out->pause };
    char *rest = NULL;
    const char *name = strtok_r(line, " \t\r", &rest);
    const char *number = name == NULL ? NULL : strtok_r(NULL, " \t\r", &rest);
    const char *unit = number == NULL ? NULL : strtok_r(NULL, " \t\r", &rest);
    if (name == NULL) {
        return 0;
    }
    for (int i = 0; i < FIELDS; i++) {
        bool unit_fits = unit == NULL || (i > 0 && strcmp(unit, "microseconds") == 0);
        if (strcmp(name, names[i]) == 0 && number != NULL && unit_fits && strtok_r(NULL, " \t\r", &rest) == NULL) {
            return number_take(number, fields[i]) ? 1 << i : -1;
        }
    }
    return -1;
}

static int settings_from_words(const char *path, struct settings *out)
{
    struct bytes file;
    int status = file_read(path, WORDS_MOST, &file);
    if (status != 0) {
        return status;
    }
    if (file.more || memchr(file.at, '\0', file.length) != NULL) {
        bool more = file.more;
        bytes_free(&file);
        return bad_words(path, more ? "a file that goes on for long" : "bytes that are no text");
    }
    char text[WORDS_MOST + 1] = "";
    memcpy(text, file.at, file.length);
    int seen = 0;
    char *rest = NULL;
    for (char *line = strtok_r(text, "\n", &rest); line != NULL && status == 0; line = strtok_r(NULL, "\n", &rest)) {
        char shown[64];
        int length = snprintf(shown, sizeof shown, "%.60s", line);
        int field = take_field(line, out);
        if (field < 0 || (seen & field) != 0) {
            status = bad_words(path, length > 0 ? shown : "");
        }
        seen |= field;
    }
    if (status == 0 && seen != (1 << FIELDS) - 1) {
        status = bad_words(path, "a field that is missing");
    }
    bytes_free(&file);
    return status;
}

static int sheet_write(int count, char **words)
{
    const char *path = NULL;
    const char *told = NULL;
    struct settings_options from = { .part = NULL };
    const struct option options[] = {
        { "--straps", &from.straps, NULL },
        { "--times", &from.times, NULL },
        { "--words", &told, NULL },
    };
    const struct place places[] = { { "SHEET", &path } };
    const struct line line = { options, sizeof options / sizeof options[0], places, 1 };
    struct settings settings = { 0 };
    int status = options_take(&line, count, words);
    if (status == 0 && told != NULL && (from.straps != NULL || from.times != NULL)) {
        status = trouble(TROUBLE_USAGE, "--words does not go with --straps or --times\n"
                                        "  expected  straps and times from one place\n"
                                        "  found     words and an option beside them\n"
                                        "  do        leave one of them out");
    }
    if (status == 0) {
        status = told != NULL ? settings_from_words(told, &settings) : settings_take(&from, &settings);
    }
    if (status != 0) {
        return status;
    }
    uint8_t sheet[POD_SHEET_BYTES];
    uint32_t number =
        pod_sheet_write(sheet, sizeof sheet, settings.straps, settings.program, settings.slice, settings.pause);
    if (number != POD_DONE) {
        return refused(number, &(struct facts){ .settings = settings });
    }
    return deliver(&(struct output){ .path = path, .at = sheet, .length = sizeof sheet }, 1);
}

int command_sheet(int count, char **words)
{
    if (count > 0 && strcmp(words[0], "read") == 0) {
        return sheet_read(count - 1, words + 1);
    }
    if (count > 0 && strcmp(words[0], "write") == 0) {
        return sheet_write(count - 1, words + 1);
    }
    return trouble(TROUBLE_USAGE, "what to do with the sheet is missing\n"
                                  "  expected  read or write\n"
                                  "  found     %s\n"
                                  "  do        see bay sheet --help",
                   count > 0 ? words[0] : "the end of the line");
}
