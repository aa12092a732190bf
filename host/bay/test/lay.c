/* lay: makes a stream from a script on the standard input, in the language of bus/script.h. */
#include "bus/script.h"

#include <stdio.h>

enum { STATUS_NOT_UNDERSTOOD = 64, STATUS_NO_INPUT = 66, STATUS_NOT_WRITTEN = 74 };

/* Lays all lines; says what is wrong with the first that is not understood. */
static int read_lines(struct script *script)
{
    struct words words;
    words_begin(&words);
    while (words_next(&words, stdin)) {
        if (!script_take(script, &words)) {
            words_wrong(&words, "expected a line of traffic, found %s", words_found(&words));
        }
        if (words_are_wrong(&words)) {
            (void)fprintf(stderr, "lay: standard input:%u: %s\n", words.line, words.wrong);
            return STATUS_NOT_UNDERSTOOD;
        }
    }
    if (ferror(stdin)) {
        (void)fprintf(stderr, "lay: expected a script on the standard input, found that it cannot be read\n");
        return STATUS_NO_INPUT;
    }
    return 0;
}

static int write_stream(const struct script *script)
{
    for (size_t i = 0; i < script->count; i++) {
        uint8_t bytes[2];
        sample_put(bytes, 0, script->laid[i].sample);
        if (fwrite(bytes, 1, sizeof bytes, stdout) != sizeof bytes) {
            return STATUS_NOT_WRITTEN;
        }
    }
    return fflush(stdout) == 0 ? 0 : STATUS_NOT_WRITTEN;
}

int main(void)
{
    struct script script;
    script_begin(&script, SIZE_MAX);
    int status = read_lines(&script);
    if (status == 0) {
        status = write_stream(&script);
        if (status != 0) {
            (void)fprintf(stderr, "lay: expected to write the stream, found that it cannot be written\n");
        }
    }
    script_free(&script);
    return status;
}
