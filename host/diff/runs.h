/* Runs: short ones with arguments that may be wrong, and the whole of a trace once more. */
#ifndef DIFF_RUNS_H
#define DIFF_RUNS_H

void try_run(void);

/* The samples of the trace, which has nothing else, through run. */
void run_whole_trace(void);

#endif
