/* All sides set to another sound state, so that states far from power-up are met too. */
#ifndef DIFF_ELSEWHERE_H
#define DIFF_ELSEWHERE_H

void send_elsewhere(void);

#endif
