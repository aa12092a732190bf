/* Calls beside the samples of a trace. */
#ifndef DIFF_CALLS_H
#define DIFF_CALLS_H

/* One of them. Only times that are set change something. */
void call_aside(void);

#endif
