/* What stands beside a target `x` while it is saved: `.bay-HASH.lock`, `.bay-HASH.draft` and `.bay-HASH.old`, where
 * HASH is made from the name x. Whoever holds the lock has all three; a server holds it as long as it lives. What nobody
 * holds is left over from a bay that was killed, and the next save of x removes it. */
#ifndef BAY_BESIDE_H
#define BAY_BESIDE_H

#include "bay/targets.h"

#include <signal.h>

/* locked, written, kept: which of the three are there and ours. placed: the draft has become the target. */
struct beside {
    struct target target;
    char lock[PATH_MAX];
    char draft[PATH_MAX];
    char old[PATH_MAX];
    int lock_file;
    int file;
    volatile sig_atomic_t locked;
    volatile sig_atomic_t written;
    volatile sig_atomic_t kept;
    volatile sig_atomic_t placed;
};

/* Finds the target and names the three. Gives null, or in words why no ordinary file can stand there. */
const char *beside_find(struct beside *beside, const char *path);

/* The others give 0 or the errno. */

/* Makes an empty draft under the lock, and removes what is left over. The lock is the claim's, if it has that one.
 * EWOULDBLOCK: another bay has the lock. */
int beside_make(struct beside *beside, const struct beside *claim);

/* Gives the draft the mode of the file that it is to replace, as far as the disk knows modes, and its owner and group
 * where that is allowed. */
int beside_dress(const struct beside *beside);

/* Writes the draft and brings it to disk. */
int beside_fill(const struct beside *beside, const void *at, size_t length);

/* Keeps the old file: under a second name, or as a copy where there are no second names. */
int beside_keep(struct beside *beside);

/* Makes the draft the target. EWOULDBLOCK: it is another's by now, which can be where a disk knows no locks. To be
 * called with the signals held back. */
int beside_place(struct beside *beside);

/* Makes the target what it was. Where that fails, what was kept stays, since it is all there is of the old. To be
 * called with the signals held back. */
int beside_put_back(struct beside *beside);

/* Brings the target's new name to disk. A folder that cannot be opened or synced at all is no fault of the file. */
int beside_sync(const struct beside *beside);

/* Removes draft and old file, where they are there and ours; beside_drop the lock too. To be called with the signals
 * held back; a signal's handler may. */
void beside_clear(struct beside *beside);
void beside_drop(struct beside *beside);

#endif
