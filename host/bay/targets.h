/* The file that a name leads to, whether it is there yet or not, and whether two names lead to the same one. */
#ifndef BAY_TARGETS_H
#define BAY_TARGETS_H

#include <limits.h>
#include <stdbool.h>
#include <stddef.h>
#include <sys/stat.h>

/* path: every link followed. folder: how much of it names the folder, with the slash. about: where it is there. */
struct target {
    char path[PATH_MAX];
    size_t folder;
    struct stat home;
    bool there;
    struct stat about;
};

/* Finds it. Gives null, or in words why no ordinary file can stand there. */
const char *target_find(struct target *target, const char *path);

/* The folder's name, "." where the path has none. */
struct folder_name {
    char text[PATH_MAX];
};
struct folder_name target_folder(const struct target *target);

bool same_inode(const struct stat *one, const struct stat *other);

/* Two spellings of one place are the same; two hard links are not, since a save gives each a file of its own. */
bool target_same(const struct target *one, const struct target *other);

#endif
