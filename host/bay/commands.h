/* The subcommands. Each takes the words after its name and gives the exit status. */
#ifndef BAY_COMMANDS_H
#define BAY_COMMANDS_H

int command_run(int count, char **words);
int command_trace(int count, char **words);
int command_demo(int count, char **words);
int command_rack(int count, char **words);
int command_serve(int count, char **words);
int command_sheet(int count, char **words);

#endif
