/* Devices of wild bytes: each is refused whole, or stepped to a device that the next step takes. */
#ifndef DIFF_WILD_H
#define DIFF_WILD_H

void try_wild_device(void);

#endif
