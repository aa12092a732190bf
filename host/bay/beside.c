/* Lock, draft and old file of one target. The signals are held back wherever a file appears and is not noted yet, and
 * let through wherever a disk may be slow. */
#include "bay/beside.h"

#include "bay/files.h"
#include "bay/signals.h"

#include <errno.h>
#include <fcntl.h>
#include <stdint.h>
#include <stdio.h>
#include <string.h>
#include <sys/file.h>
#include <unistd.h>

enum { LOCK_TRIES = 100 };

/* The names are the same for every bay, and short, however long the target's own is. */
static bool name_files(struct beside *beside)
{
    const struct target *target = &beside->target;
    uint64_t hash = 0xCBF29CE484222325; /* FNV-1a */
    for (const char *at = target->path + target->folder; *at != '\0'; at++) {
        hash = (hash ^ (uint8_t)*at) * 0x100000001B3;
    }
    const struct {
        char *name;
        const char *ending;
    } files[] = { { beside->lock, "lock" }, { beside->draft, "draft" }, { beside->old, "old" } };
    for (size_t i = 0; i < sizeof files / sizeof files[0]; i++) {
        int length = snprintf(files[i].name, PATH_MAX, "%.*s.bay-%016llx.%s", (int)target->folder, target->path,
                              (unsigned long long)hash, files[i].ending);
        if (length < 0 || length >= PATH_MAX) {
            return false;
        }
    }
    return true;
}

const char *beside_find(struct beside *beside, const char *path)
{
    const char *why = target_find(&beside->target, path);
    return why == NULL && !name_files(beside) ? strerror(ENAMETOOLONG) : why;
}

/* Gives 0 where the name still leads to the file, EWOULDBLOCK where it does not, or the errno. */
static int check_name(int file, const char *path)
{
    struct stat ours;
    struct stat there;
    if (fstat(file, &ours) != 0 || lstat(path, &there) != 0) {
        return errno == ENOENT ? EWOULDBLOCK : errno;
    }
    return same_inode(&ours, &there) ? 0 : EWOULDBLOCK;
}

static int take_lock(struct beside *beside)
{
    const int flags = O_NOFOLLOW | O_NONBLOCK | O_CLOEXEC;
    for (unsigned attempt = 0; attempt < LOCK_TRIES; attempt++) {
        int file = open(beside->lock, O_RDWR | O_CREAT | flags, 0666);
        if (file < 0 && errno == EACCES) {
            file = open(beside->lock, O_RDONLY | flags); /* someone else's */
            if (file < 0 && errno == ENOENT) {
                continue; /* and removed since */
            }
        }
        if (file < 0) {
            return errno;
        }
        /* a disk that knows no locks is written all the same */
        if (flock(file, LOCK_EX | LOCK_NB) != 0 && errno == EWOULDBLOCK) {
            (void)close(file);
            return EWOULDBLOCK;
        }
        /* whoever had it before may have removed the name in between */
        int error = check_name(file, beside->lock);
        if (error == 0) {
            beside->lock_file = file;
            beside->locked = 1;
            return 0;
        }
        (void)close(file);
        if (error != EWOULDBLOCK) {
            return error;
        }
    }
    return EWOULDBLOCK;
}

static int clear(const char *path)
{
    return unlink(path) == 0 || errno == ENOENT ? 0 : errno;
}

int beside_make(struct beside *beside, const struct beside *claim)
{
    struct held held;
    signals_hold(&held);
    bool lent = claim->locked && check_name(claim->lock_file, beside->lock) == 0;
    int error = lent ? 0 : take_lock(beside);
    if (error == 0) {
        error = clear(beside->old);
    }
    if (error == 0) {
        error = clear(beside->draft);
    }
    if (error == 0) {
        beside->file = open(beside->draft, O_WRONLY | O_CREAT | O_EXCL | O_CLOEXEC, beside->target.there ? 0600 : 0666);
        beside->written = beside->file >= 0;
        error = beside->written ? 0 : errno;
    }
    signals_let(&held);
    return error;
}

static bool is_unknown(int error)
{
    return error == EPERM || error == EOPNOTSUPP || error == ENOSYS;
}

/* Gives a file the owner, the group and the mode of the one that is to be replaced. */
static int dress(const struct beside *beside, int file)
{
    const struct stat *as = &beside->target.about;
    struct stat now;
    if (!beside->target.there) {
        return 0;
    }
    if (fstat(file, &now) != 0) {
        return errno;
    }
    if ((now.st_gid != as->st_gid && fchown(file, (uid_t)-1, as->st_gid) != 0) ||
        (now.st_uid != as->st_uid && fchown(file, as->st_uid, (gid_t)-1) != 0)) {
        /* not everybody may give files away */
    }
    if ((now.st_mode & 0777) == (as->st_mode & 0777) || fchmod(file, as->st_mode & 0777) == 0 || is_unknown(errno)) {
        return 0;
    }
    return errno;
}

int beside_dress(const struct beside *beside)
{
    return dress(beside, beside->file);
}

static int to_disk(int file)
{
    int done = 0;
    do {
        done = fsync(file);
    } while (done != 0 && errno == EINTR);
    return done == 0 ? 0 : errno;
}

int beside_fill(const struct beside *beside, const void *at, size_t length)
{
    int error = write_all(beside->file, at, length);
    return error == 0 ? to_disk(beside->file) : error;
}

static int copy_old(const struct beside *beside, int to)
{
    uint8_t part[16384];
    ssize_t got = 0;
    int from = open(beside->target.path, O_RDONLY | O_CLOEXEC);
    int error = from < 0 ? errno : dress(beside, to);
    while (error == 0 && (got = read(from, part, sizeof part)) != 0) {
        if (got > 0) {
            error = write_all(to, part, (size_t)got);
        } else if (errno != EINTR) {
            error = errno;
        }
    }
    if (from >= 0) {
        (void)close(from);
    }
    return error == 0 ? to_disk(to) : error;
}

int beside_keep(struct beside *beside)
{
    int copy = -1;
    struct held held;
    signals_hold(&held);
    int error = link(beside->target.path, beside->old) == 0 ? 0 : errno;
    if (is_unknown(error) || error == EMLINK) {
        copy = open(beside->old, O_WRONLY | O_CREAT | O_EXCL | O_CLOEXEC, 0600);
        error = copy >= 0 ? 0 : errno;
    }
    beside->kept = error == 0;
    signals_let(&held);
    if (copy >= 0) {
        error = copy_old(beside, copy);
        (void)close(copy);
    }
    return error;
}

int beside_place(struct beside *beside)
{
    int error = check_name(beside->file, beside->draft);
    if (error != 0) {
        return error;
    }
    if (rename(beside->draft, beside->target.path) != 0) {
        return errno;
    }
    (void)close(beside->file);
    beside->written = 0;
    beside->placed = 1;
    return 0;
}

int beside_put_back(struct beside *beside)
{
    int done = beside->kept ? rename(beside->old, beside->target.path) : unlink(beside->target.path);
    int error = done == 0 ? 0 : errno;
    beside->kept = 0;
    beside->placed = error != 0;
    return error;
}

int beside_sync(const struct beside *beside)
{
    int folder = open(target_folder(&beside->target).text, O_RDONLY | O_CLOEXEC);
    if (folder < 0) {
        return errno;
    }
    int error = to_disk(folder);
    (void)close(folder);
    return error == EINVAL || error == EOPNOTSUPP ? 0 : error;
}

void beside_clear(struct beside *beside)
{
    if (beside->written) {
        if (check_name(beside->file, beside->draft) == 0) {
            (void)unlink(beside->draft);
        }
        (void)close(beside->file);
    }
    if (beside->kept) {
        (void)unlink(beside->old);
    }
    beside->written = 0;
    beside->kept = 0;
    beside->placed = 0;
}

void beside_drop(struct beside *beside)
{
    beside_clear(beside);
    /* the name goes before the lock does, so that nobody holds a lock without a name for long */
    if (beside->locked) {
        if (check_name(beside->lock_file, beside->lock) == 0) {
            (void)unlink(beside->lock);
        }
        (void)close(beside->lock_file);
    }
    beside->locked = 0;
}
