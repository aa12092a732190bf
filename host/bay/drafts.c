/* Rounds of drafts, and what is said where one fails. */
#include "bay/drafts.h"

#include "bay/beside.h"
#include "bay/files.h"
#include "bay/signals.h"
#include "bay/text.h"
#include "bay/trouble.h"

#include <errno.h>
#include <string.h>

enum { DRAFTS = 4 };

/* said: the target's name as it was given. */
struct draft {
    const char *said;
    struct beside beside;
};

/* Static, so that a signal finds what to remove. */
static struct draft drafts[DRAFTS];
static size_t draft_count;
static struct signals signals;

/* Has the lock of the file that was claimed. */
static struct beside claim;

static int not_made(const char *path, const char *found)
{
    return trouble(TROUBLE_CREATE, "%s cannot be written; nothing was changed\n"
                                   "  expected  an ordinary file, or a new name, in a folder that may be written\n"
                                   "  found     %s\n"
                                   "  do        choose another place",
                   path, found);
}

static int busy(const char *path)
{
    return trouble(TROUBLE_CREATE, "%s cannot be written; nothing was changed\n"
                                   "  expected  one bay at a time that writes this file\n"
                                   "  found     another bay is writing this file, or serves it\n"
                                   "  do        wait until it is done, or end the server, and run again",
                   path);
}

static int not_dressed(const char *path, int error)
{
    return trouble(TROUBLE_OUTPUT, "%s cannot be replaced by a file of the same mode; nothing was changed\n"
                                   "  expected  a disk that lets a new file have the mode of the old one\n"
                                   "  found     %s\n"
                                   "  do        look after the disk, or choose another place, and run again",
                   path, strerror(error));
}

static int not_kept(const char *path, int error)
{
    return trouble(TROUBLE_OUTPUT, "%s cannot be replaced together with another file; nothing was changed\n"
                                   "  expected  that the old file can be kept beside it until both are in place\n"
                                   "  found     %s\n"
                                   "  do        make room, or choose another place, and run again",
                   path, strerror(error));
}

static int not_placed(const char *path, int error)
{
    return trouble(TROUBLE_OUTPUT, "%s could not be put in place; nothing was changed\n"
                                   "  expected  a folder in which a file may be renamed\n"
                                   "  found     %s\n"
                                   "  do        look after the disk, or choose another place, and run again",
                   path, strerror(error));
}

/* The files that are new, or those that are as before; tells_old: each with the place of its old one. */
static struct text list_files(bool is_new, bool tells_old)
{
    struct text list = { NULL, 0, 0 };
    text_add(&list, "%s", "");
    for (size_t i = 0; i < draft_count; i++) {
        const struct beside *beside = &drafts[i].beside;
        if ((beside->placed != 0) != is_new) {
            continue;
        }
        text_add(&list, "%s%s", list.length > 0 ? ", " : "", drafts[i].said);
        if (tells_old && beside->target.there) {
            text_add(&list, " (the old one is beside it as %s)", beside->old + beside->target.folder);
        }
    }
    return list;
}

static int not_synced(int error)
{
    struct text now_new = list_files(true, false);
    int status = trouble(TROUBLE_OUTPUT, "a folder could not be brought to disk\n"
                                         "  expected  a folder that outlasts a power cut\n"
                                         "  found     %s; new: %s, but a power cut may bring the old back\n"
                                         "  do        look after the disk, and run again",
                         strerror(error), now_new.bytes);
    text_free(&now_new);
    return status;
}

static int torn(const char *path, int error, int back)
{
    struct text now_new = list_files(true, true);
    struct text as_before = list_files(false, false);
    int status =
        trouble(TROUBLE_OUTPUT, "%s could not be put in place, and what was in place already could not be put back\n"
                                "  expected  a folder in which a file may be renamed\n"
                                "  found     %s, then %s; new: %s; as before: %s\n"
                                "  do        take what you need of the old, look after the disk, and run again",
                path, strerror(error), strerror(back), now_new.bytes, as_before.bytes);
    text_free(&now_new);
    text_free(&as_before);
    return status;
}

static void drop_all(void)
{
    struct held held;
    signals_hold(&held);
    for (size_t i = 0; i < DRAFTS; i++) {
        beside_drop(&drafts[i].beside);
    }
    signals_let(&held);
}

static void on_signal(int number)
{
    drop_all();
    signals_end_by(number);
}

void drafts_begin(void)
{
    draft_count = 0;
    signals_take(&signals, on_signal, 0);
}

void drafts_end(void)
{
    drop_all();
    signals_give_back(&signals);
}

/* What is said of a draft that could not be made. */
static int told(const char *path, int error)
{
    if (error == EWOULDBLOCK) {
        return busy(path);
    }
    return error == 0 ? 0 : not_made(path, strerror(error));
}

int drafts_claim(const char *path)
{
    const char *why = beside_find(&claim, path);
    if (why != NULL) {
        return not_made(path, why);
    }
    int error = beside_make(&claim, &claim);
    if (error == 0) {
        beside_clear(&claim);
    } else {
        beside_drop(&claim);
    }
    return told(path, error);
}

void drafts_release(void)
{
    beside_drop(&claim);
}

int drafts_write(const char *path, const void *at, size_t length)
{
    if (draft_count == DRAFTS) {
        return not_made(path, "more files than are written at once");
    }
    struct draft *draft = &drafts[draft_count++];
    draft->said = path;
    const char *why = beside_find(&draft->beside, path);
    if (why != NULL) {
        return not_made(path, why);
    }
    int error = beside_make(&draft->beside, &claim);
    if (error != 0) {
        return told(path, error);
    }
    error = beside_dress(&draft->beside);
    if (error != 0) {
        return not_dressed(path, error);
    }
    error = beside_fill(&draft->beside, at, length);
    return error == 0 ? 0 : not_written(path, error);
}

int drafts_keep(void)
{
    /* the last one is put in place last, and so never has to be put back */
    for (size_t i = 0; i + 1 < draft_count; i++) {
        int error = drafts[i].beside.target.there ? beside_keep(&drafts[i].beside) : 0;
        if (error != 0) {
            return not_kept(drafts[i].said, error);
        }
    }
    return 0;
}

static int sync_folders(void)
{
    int error = 0;
    for (size_t i = 0; i < draft_count; i++) {
        bool synced = i > 0 && same_inode(&drafts[i].beside.target.home, &drafts[i - 1].beside.target.home);
        int now = synced ? 0 : beside_sync(&drafts[i].beside);
        error = now != 0 ? now : error;
    }
    return error;
}

static int put_all_back(void)
{
    int error = 0;
    for (size_t i = draft_count; i-- > 0;) {
        int now = drafts[i].beside.placed ? beside_put_back(&drafts[i].beside) : 0;
        error = now != 0 ? now : error;
    }
    (void)sync_folders();
    return error;
}

int drafts_place(void)
{
    int error = 0;
    size_t at = 0;
    struct held held;
    signals_hold(&held);
    while (at < draft_count && error == 0) {
        error = beside_place(&drafts[at].beside);
        at += error == 0 ? 1 : 0;
    }
    int then = error == 0 ? sync_folders() : put_all_back();
    int status = 0;
    if (then != 0) {
        /* said before a signal can end bay, since nobody would know otherwise */
        status = error == 0 ? not_synced(then) : torn(drafts[at].said, error, then);
    }
    signals_let(&held);
    if (error == 0 || status != 0) {
        return status;
    }
    return error == EWOULDBLOCK ? busy(drafts[at].said) : not_placed(drafts[at].said, error);
}
