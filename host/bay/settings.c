/* Part, straps and times from options or from a bay sheet. */
#include "bay/settings.h"

#include "bay/files.h"
#include "bay/text.h"
#include "bay/trouble.h"
#include "bay/words.h"
#include "bus/addresses.h"
#include "pod.h"

#include <string.h>

enum { SHEET_MOST = 4096 };

static const struct settings usual = { POD_PART_FWH, 0, 10, 3906, 30 };

static const char *const parts[] = { [POD_PART_FWH] = "fwh", [POD_PART_LPC] = "lpc" };
enum { PARTS = sizeof parts / sizeof parts[0] };

const char *part_word(uint32_t part)
{
    return parts[part];
}

int part_take(const char *word, uint32_t *out)
{
    if (word == NULL) {
        return 0;
    }
    for (uint32_t part = 0; part < PARTS; part++) {
        if (strcmp(word, parts[part]) == 0) {
            *out = part;
            return 0;
        }
    }
    return trouble(TROUBLE_USAGE, "--part is neither fwh nor lpc\n"
                                  "  expected  fwh for the M50FW080, lpc for the M50LPW080\n"
                                  "  found     %s\n"
                                  "  do        give it as in --part lpc",
                   word);
}

/* The digits at the front of the words, and where they end. */
static const char *digits(const char *words, uint32_t *out)
{
    uint64_t number = 0;
    const char *at = words;
    while (*at >= '0' && *at <= '9') {
        number = number * 10 + (uint64_t)(*at - '0');
        if (number > UINT32_MAX) {
            number = UINT32_MAX;
        }
        at++;
    }
    *out = (uint32_t)number;
    return at == words ? NULL : at;
}

bool number_take(const char *words, uint32_t *out)
{
    const char *end = digits(words, out);
    return end != NULL && *end == '\0';
}

int number_within(const char *option, const char *words, struct bounds bounds, uint32_t *out)
{
    if (number_take(words, out) && *out >= bounds.least && *out <= bounds.most) {
        return 0;
    }
    return trouble(TROUBLE_USAGE, "%s is not a number that fits\n"
                                  "  expected  a whole number from %s to %s\n"
                                  "  found     %s\n"
                                  "  do        give such a number",
                   option, counted(bounds.least).text, counted(bounds.most).text, words);
}

static bool times_take(const char *words, struct settings *out)
{
    uint32_t *const three[] = { &out->program, &out->slice, &out->pause };
    for (size_t i = 0; i < 3; i++) {
        words = digits(words, three[i]);
        if (words == NULL || *words != (i < 2 ? ',' : '\0')) {
            return false;
        }
        words++;
    }
    return true;
}

int settings_from_sheet(const char *path, struct settings *out)
{
    struct bytes sheet;
    int status = file_read(path, SHEET_MOST, &sheet);
    if (status != 0) {
        return status;
    }
    struct pod_sheet read = pod_sheet_read(sheet.at, sheet.length);
    if (read.number != POD_DONE) {
        status = refused(read.number,
                         &(struct facts){ .sheet = path, .sheet_bytes = sheet.at, .sheet_length = sheet.length });
    }
    *out = (struct settings){ POD_PART_FWH, read.straps, read.program, read.slice, read.pause };
    bytes_free(&sheet);
    return status;
}

/* Where a sheet is named: straps and times are its own, and the part is FWH's. */
static int sheet_take(const struct settings_options *options, struct settings *out)
{
    if (options->straps != NULL || options->times != NULL) {
        return trouble(TROUBLE_USAGE, "--sheet does not go with --straps or --times\n"
                                      "  expected  straps and times from one place\n"
                                      "  found     a sheet and an option beside it\n"
                                      "  do        leave one of them out");
    }
    if (out->part != POD_PART_FWH) {
        return trouble(TROUBLE_USAGE, "--sheet does not go with --part %s\n"
                                      "  expected  the part that a sheet is for, which is fwh\n"
                                      "  found     --part %s beside %s\n"
                                      "  do        leave the sheet out, and give its straps and times as options",
                       part_word(out->part), part_word(out->part), options->sheet);
    }
    return settings_from_sheet(options->sheet, out);
}

int settings_take(const struct settings_options *options, struct settings *out)
{
    *out = usual;
    int status = part_take(options->part, &out->part);
    if (status != 0 || options->sheet != NULL) {
        return status != 0 ? status : sheet_take(options, out);
    }
    if (options->straps != NULL && !number_take(options->straps, &out->straps)) {
        return trouble(TROUBLE_USAGE, "--straps is not a number\n"
                                      "  expected  a whole number, 0 to %u\n"
                                      "  found     %s\n"
                                      "  do        give it as in --straps 3",
                       (unsigned)straps_most(out->part), options->straps);
    }
    if (options->times != NULL && !times_take(options->times, out)) {
        return trouble(TROUBLE_USAGE, "--times is not three numbers\n"
                                      "  expected  program, slice and pause in microseconds, with commas and no blanks\n"
                                      "  found     %s\n"
                                      "  do        give them as in --times 10,3906,30",
                       options->times);
    }
    return 0;
}
