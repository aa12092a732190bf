/* bay: what a fitter runs at night. It knows the bus and has words for what it sees; what the part does is asked of the
 * proved library. */
#include "bay/commands.h"
#include "bay/files.h"
#include "bay/help.h"
#include "bay/trouble.h"

#include <errno.h>
#include <fcntl.h>
#include <signal.h>
#include <stdbool.h>
#include <stdio.h>
#include <string.h>
#include <unistd.h>

static const struct command {
    const char *name;
    int (*carry_out)(int count, char **words);
    const char *help;
} commands[] = {
    { "run", command_run, help_run },       { "trace", command_trace, help_trace }, { "demo", command_demo, help_demo },
    { "rack", command_rack, help_rack },    { "serve", command_serve, help_serve }, { "sheet", command_sheet, help_sheet },
};
enum { COMMANDS = sizeof commands / sizeof commands[0] };

static const struct command *find(const char *name)
{
    for (size_t i = 0; i < COMMANDS; i++) {
        if (strcmp(commands[i].name, name) == 0) {
            return &commands[i];
        }
    }
    return NULL;
}

static bool asks_help(const char *word)
{
    return strcmp(word, "--help") == 0 || strcmp(word, "-h") == 0;
}

static bool any_asks_help(int count, char **words)
{
    for (int i = 0; i < count && strcmp(words[i], "--") != 0; i++) {
        if (asks_help(words[i])) {
            return true;
        }
    }
    return false;
}

static int print(const char *words)
{
    return deliver(&(struct output){ .at = words, .length = strlen(words), .report = true }, 1);
}

static int no_command(const char *found)
{
    return trouble(TROUBLE_USAGE, "there is no such command\n"
                                  "  expected  run, trace, demo, rack, serve or sheet\n"
                                  "  found     %s\n"
                                  "  do        see bay --help",
                   found);
}

/* A standard stream that was closed gets a file in its place that gives and takes nothing, so that no file or socket of
 * bay's own is taken for it. */
static void hold_standard_places(void)
{
    for (int place = STDIN_FILENO; place <= STDERR_FILENO; place++) {
        if (fcntl(place, F_GETFD) < 0 && open("/dev/null", place == STDIN_FILENO ? O_WRONLY : O_RDONLY) < 0) {
            return;
        }
    }
}

/* A file that may not grow further is then an error of the write, which is told and cleaned up after. */
static int ignore_file_size_signal(void)
{
    struct sigaction ignored;
    memset(&ignored, 0, sizeof ignored);
    ignored.sa_handler = SIG_IGN;
    (void)sigemptyset(&ignored.sa_mask);
    if (sigaction(SIGXFSZ, &ignored, NULL) == 0) {
        return 0;
    }
    return trouble(TROUBLE_SYSTEM, "a signal cannot be ignored\n"
                                   "  expected  a system that lets SIGXFSZ be ignored\n"
                                   "  found     %s\n"
                                   "  do        look at what the system forbids this program",
                   strerror(errno));
}

int main(int count, char **words)
{
    hold_standard_places();
    int status = ignore_file_size_signal();
    if (status != 0) {
        return status;
    }
    if (count < 2) {
        return no_command("nothing");
    }
    bool help_word = strcmp(words[1], "help") == 0;
    if (asks_help(words[1]) || (help_word && count < 3)) {
        return print(help_bay);
    }
    const struct command *command = find(help_word ? words[2] : words[1]);
    if (command == NULL) {
        return no_command(help_word ? words[2] : words[1]);
    }
    if (help_word || any_asks_help(count - 2, words + 2)) {
        return print(command->help);
    }
    char speaker[32];
    int length = snprintf(speaker, sizeof speaker, "bay %s", command->name);
    trouble_speaker(length > 0 ? speaker : "bay");
    return command->carry_out(count - 2, words + 2);
}
