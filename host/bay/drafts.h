/* Files on their way. Each is written beside its target and brought to disk, and then all are put in place together. */
#ifndef BAY_DRAFTS_H
#define BAY_DRAFTS_H

#include <stddef.h>

/* Opens and closes a round of at most four drafts. In between, a signal removes what stands beside before it ends
 * bay. */
void drafts_begin(void);
void drafts_end(void);

/* Each of these gives 0, or a status after a message. Then no target has changed, unless the message says so. */

/* Writes one more draft. */
int drafts_write(const char *path, const void *at, size_t length);

/* Keeps the old files beside, as far as they may have to be put back. */
int drafts_keep(void);

/* Puts all drafts in place. Where one cannot be, those before it are put back. */
int drafts_place(void);

/* Outside of a round: sees that a draft can be made, and keeps all other bays from writing this file until it is
 * released. Whoever claims a file lets no signal end it before the release. */
int drafts_claim(const char *path);
void drafts_release(void);

#endif
