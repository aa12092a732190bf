/* Reading a command line. */
#include "bay/options.h"

#include "bay/files.h"
#include "bay/trouble.h"

#include <string.h>

static int unknown(const char *word)
{
    return trouble(TROUBLE_USAGE, "%s is not an option here\n"
                                  "  expected  an option that the help names\n"
                                  "  found     %s\n"
                                  "  do        see this command's --help",
                   word, word);
}

static int no_value(const char *name)
{
    return trouble(TROUBLE_USAGE, "%s stands alone\n"
                                  "  expected  a value behind %s\n"
                                  "  found     the end of the line\n"
                                  "  do        see this command's --help",
                   name, name);
}

static int twice(const char *name)
{
    return trouble(TROUBLE_USAGE, "%s is given twice\n"
                                  "  expected  each option once\n"
                                  "  found     %s a second time\n"
                                  "  do        leave one of them out",
                   name, name);
}

static int no_flag_value(const char *word)
{
    return trouble(TROUBLE_USAGE, "%s has a value that it does not take\n"
                                  "  expected  the option by itself\n"
                                  "  found     %s\n"
                                  "  do        leave the value out",
                   word, word);
}

/* The option that the word names, up to its `=` if it has one. */
static const struct option *find(const struct line *line, const char *word)
{
    size_t length = strcspn(word, "=");
    for (size_t i = 0; i < line->option_count; i++) {
        if (strlen(line->options[i].name) == length && strncmp(line->options[i].name, word, length) == 0) {
            return &line->options[i];
        }
    }
    return NULL;
}

/* Takes the option at words[*at] and moves on past its value. */
static int take_option(const struct line *line, int count, char **words, int *at)
{
    const char *word = words[*at];
    const struct option *option = find(line, word);
    const char *inside = strchr(word, '=');
    if (option == NULL) {
        return unknown(word);
    }
    if (option->flag != NULL) {
        if (inside != NULL) {
            return no_flag_value(word);
        }
        *option->flag = true;
        return 0;
    }
    if (*option->value != NULL) {
        return twice(option->name);
    }
    if (inside == NULL && *at + 1 >= count) {
        return no_value(option->name);
    }
    *option->value = inside != NULL ? inside + 1 : words[++*at];
    return 0;
}

static int take_place(const struct line *line, size_t taken, const char *word)
{
    if (taken >= line->place_count) {
        return trouble(TROUBLE_USAGE, "%s is one name too many\n"
                                      "  expected  %zu of them\n"
                                      "  found     %s behind them\n"
                                      "  do        see this command's --help",
                       word, line->place_count, word);
    }
    *line->places[taken].value = word;
    return 0;
}

int options_take(const struct line *line, int count, char **words)
{
    size_t taken = 0;
    bool only_names = false;
    for (int at = 0; at < count; at++) {
        const char *word = words[at];
        int status = 0;
        if (!only_names && strcmp(word, "--") == 0) {
            only_names = true;
        } else if (!only_names && word[0] == '-' && word[1] != '\0') {
            status = take_option(line, count, words, &at);
        } else {
            status = take_place(line, taken++, word);
        }
        if (status != 0) {
            return status;
        }
    }
    if (taken < line->place_count) {
        return trouble(TROUBLE_USAGE, "a name is missing\n"
                                      "  expected  %s\n"
                                      "  found     the end of the line\n"
                                      "  do        see this command's --help",
                       line->places[taken].word);
    }
    return 0;
}

int one_standard(const char *which, const char *const *names, size_t count)
{
    size_t found = 0;
    for (size_t i = 0; i < count; i++) {
        found += is_standard(names[i]) ? 1U : 0U;
    }
    if (found < 2) {
        return 0;
    }
    return trouble(TROUBLE_USAGE, "more than one name is -\n"
                                  "  expected  the standard %s for one of them at most\n"
                                  "  found     it for %zu\n"
                                  "  do        name files for the others",
                   which, found);
}
