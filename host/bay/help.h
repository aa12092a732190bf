/* The help of bay and of each of its subcommands, each with a line to try. */
#ifndef BAY_HELP_H
#define BAY_HELP_H

extern const char help_bay[];
extern const char help_run[];
extern const char help_trace[];
extern const char help_demo[];
extern const char help_rack[];
extern const char help_serve[];
extern const char help_sheet[];

#endif
