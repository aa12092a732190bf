/* The command line: options by name, and names that stand by themselves. */
#ifndef BAY_OPTIONS_H
#define BAY_OPTIONS_H

#include <stdbool.h>
#include <stddef.h>

/* An option takes a value (`--port 4000` or `--port=4000`) or is a flag. */
struct option {
    const char *name;
    const char **value;
    bool *flag;
};

/* The names that must stand on the line, each with the word that the help uses for it. */
struct place {
    const char *word;
    const char **value;
};

struct line {
    const struct option *options;
    size_t option_count;
    const struct place *places;
    size_t place_count;
};

/* Reads the words after the subcommand. Gives 0 or a status after a message. */
int options_take(const struct line *line, int count, char **words);

/* Gives 0 where at most one of the names is "-", the standard `which`. A null name is left out. */
int one_standard(const char *which, const char *const *names, size_t count);

#endif
