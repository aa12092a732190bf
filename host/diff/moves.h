/* Moves: what the host of a trace does next. */
#ifndef DIFF_MOVES_H
#define DIFF_MOVES_H

void move(void);

#endif
