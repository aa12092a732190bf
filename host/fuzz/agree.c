/* A second reading of the words of a sheet, from their first byte to their last. */
#include "fuzz/agree.h"

#include "pod.h"

#include <stdio.h>
#include <string.h>

/* The words that are still to be read. */
struct reading {
    const uint8_t *at;
    size_t left;
};

/* One word: bytes up to a blank or the end. Its length is 0 where there is no more. */
static struct reading next_word(struct reading *rest)
{
    static const char blanks[] = " \t\r\n";
    enum { BLANKS = sizeof blanks - 1 };
    while (rest->left > 0 && memchr(blanks, rest->at[0], BLANKS) != NULL) {
        rest->at++;
        rest->left--;
    }
    struct reading word = { rest->at, 0 };
    while (rest->left > 0 && memchr(blanks, rest->at[0], BLANKS) == NULL) {
        rest->at++;
        rest->left--;
        word.left++;
    }
    return word;
}

static bool is(const struct reading *word, const char *text)
{
    return word->left == strlen(text) && memcmp(word->at, text, word->left) == 0;
}

/* Whether the word is the number, with zeros in front of it or without. */
static bool is_number(struct reading word, uint32_t number)
{
    char digits[16];
    while (word.left > 1 && word.at[0] == '0') {
        word.at++;
        word.left--;
    }
    return snprintf(digits, sizeof digits, "%u", (unsigned)number) > 0 && is(&word, digits);
}

bool words_agree(const struct input *words, const char *sheet)
{
    uint8_t bytes[POD_SHEET_BYTES + 1];
    FILE *file = fopen(sheet, "rb");
    size_t length = file == NULL ? 0 : fread(bytes, 1, sizeof bytes, file);
    if (file != NULL) {
        (void)fclose(file);
    }
    struct pod_sheet read = pod_sheet_read(bytes, length);
    const struct {
        const char *name;
        uint32_t number;
    } fields[] = {
        { "straps", read.straps }, { "program", read.program }, { "slice", read.slice }, { "pause", read.pause }
    };
    enum { FIELDS = sizeof fields / sizeof fields[0] };
    struct reading rest = { words->at, words->length };
    unsigned found = 0;
    size_t field = FIELDS;
    for (struct reading word = next_word(&rest); word.left > 0; word = next_word(&rest)) {
        bool unit = field < FIELDS && field > 0 && is(&word, "microseconds");
        for (field = 0; field < FIELDS && !unit && !is(&word, fields[field].name); field++) {
        }
        if (!unit && (field == FIELDS || !is_number(next_word(&rest), fields[field].number))) {
            return false;
        }
        found += unit ? 0 : 1U << 8 * field;
        field = unit ? FIELDS : field;
    }
    return read.number == POD_DONE && found == 0x01010101U;
}
