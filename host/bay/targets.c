/* Following names to files. */
#include "bay/targets.h"

#include <errno.h>
#include <stdio.h>
#include <string.h>
#include <unistd.h>

enum { LINKS_MOST = 40 };

static size_t folder_length(const char *path)
{
    const char *slash = strrchr(path, '/');
    return slash == NULL ? 0 : (size_t)(slash - path) + 1;
}

/* Follows the link at the path by one step. Gives 0, or the errno. */
static int follow(char *path)
{
    char leads[PATH_MAX];
    ssize_t length = readlink(path, leads, sizeof leads - 1);
    if (length < 0) {
        return errno;
    }
    leads[length] = '\0';
    size_t folder = leads[0] == '/' ? 0 : folder_length(path);
    if (folder + (size_t)length >= PATH_MAX) {
        return ENAMETOOLONG;
    }
    memcpy(path + folder, leads, (size_t)length + 1);
    return 0;
}

/* Follows links until there is none, or none any more. */
static int follow_all(char *path)
{
    struct stat about;
    int error = 0;
    for (unsigned links = 0; error == 0 && lstat(path, &about) == 0 && S_ISLNK(about.st_mode); links++) {
        error = links < LINKS_MOST ? follow(path) : ELOOP;
    }
    return error;
}

struct folder_name target_folder(const struct target *target)
{
    struct folder_name folder = { "." };
    if (target->folder > 0) {
        memcpy(folder.text, target->path, target->folder);
        folder.text[target->folder] = '\0';
    }
    return folder;
}

const char *target_find(struct target *target, const char *path)
{
    int length = snprintf(target->path, sizeof target->path, "%s", path);
    if (length <= 0 || (size_t)length >= sizeof target->path) {
        return "a name of no length, or one that is too long";
    }
    /* the system's own word first: it may forbid that a link be followed */
    target->there = stat(path, &target->about) == 0;
    if (!target->there && errno != ENOENT) {
        return strerror(errno);
    }
    if (target->there && !S_ISREG(target->about.st_mode)) {
        return S_ISDIR(target->about.st_mode) ? "a folder" : "something that is no ordinary file";
    }
    int error = follow_all(target->path);
    if (error != 0) {
        return strerror(error);
    }
    target->folder = folder_length(target->path);
    if (stat(target_folder(target).text, &target->home) != 0) {
        return strerror(errno);
    }
    return target->path[target->folder] != '\0' ? NULL : "a name that ends with a slash";
}

bool same_inode(const struct stat *one, const struct stat *other)
{
    return one->st_dev == other->st_dev && one->st_ino == other->st_ino;
}

bool target_same(const struct target *one, const struct target *other)
{
    /* a file of one name that answers to two is on a disk that does not tell capitals apart */
    if (one->there && other->there && same_inode(&one->about, &other->about) && one->about.st_nlink == 1) {
        return true;
    }
    return same_inode(&one->home, &other->home) &&
           strcmp(one->path + one->folder, other->path + other->folder) == 0;
}
