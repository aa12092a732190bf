/* Reading whole files, and replacing them whole or not at all. */
#include "bay/files.h"

#include "bay/drafts.h"
#include "bay/targets.h"
#include "bay/text.h"
#include "bay/trouble.h"

#include <errno.h>
#include <fcntl.h>
#include <poll.h>
#include <stdlib.h>
#include <string.h>
#include <sys/stat.h>
#include <unistd.h>

bool is_standard(const char *path)
{
    return path != NULL && strcmp(path, "-") == 0;
}

bool file_exists(const char *path)
{
    struct stat about;
    return lstat(path, &about) == 0 || errno != ENOENT;
}

static int unreadable(const char *path, int error)
{
    return trouble(TROUBLE_NO_INPUT, "%s cannot be read\n"
                                     "  expected  a file that is there and may be read\n"
                                     "  found     %s\n"
                                     "  do        check the name and who may read it",
                   path, strerror(error));
}

int file_read(const char *path, size_t most, struct bytes *out)
{
    *out = (struct bytes){ NULL, 0, false };
    int file = is_standard(path) ? STDIN_FILENO : open(path, O_RDONLY | O_CLOEXEC);
    if (file < 0) {
        return unreadable(path, errno);
    }
    out->at = must_have(most + 1);
    int error = 0;
    while (out->length < most + 1) {
        ssize_t got = read(file, out->at + out->length, most + 1 - out->length);
        if (got > 0) {
            out->length += (size_t)got;
        } else if (got == 0) {
            break;
        } else if (errno != EINTR) {
            error = errno;
            break;
        }
    }
    if (file != STDIN_FILENO) {
        (void)close(file);
    }
    if (error != 0) {
        bytes_free(out);
        return unreadable(path, error);
    }
    out->more = out->length > most;
    return 0;
}

void bytes_free(struct bytes *bytes)
{
    free(bytes->at);
    *bytes = (struct bytes){ NULL, 0, false };
}

int write_all(int file, const void *at, size_t length)
{
    const uint8_t *from = at;
    struct pollfd out = { .fd = file, .events = POLLOUT };
    while (length > 0) {
        ssize_t done = write(file, from, length);
        if (done < 0 && (errno == EINTR || (errno == EAGAIN && poll(&out, 1, -1) >= 0))) {
            continue;
        }
        if (done <= 0) {
            return done == 0 ? EIO : errno;
        }
        from += done;
        length -= (size_t)done;
    }
    return 0;
}

int not_written(const char *path, int error)
{
    return trouble(TROUBLE_OUTPUT, "%s could not be written whole; nothing was changed\n"
                                   "  expected  room for all of it\n"
                                   "  found     %s\n"
                                   "  do        make room, or choose another place, and run again",
                   path, strerror(error));
}

static int same_file(const struct named *one, const struct named *other)
{
    bool spelled_so = strcmp(one->path, other->path) == 0;
    return trouble(TROUBLE_USAGE, "%s and %s name the same file\n"
                                  "  expected  two files\n"
                                  "  found     %s%s%s\n"
                                  "  do        give one of them another name",
                   one->name, other->name, one->path, spelled_so ? " for both" : " and ",
                   spelled_so ? "" : other->path);
}

static bool is_file(const struct named *output, struct target *target)
{
    return output->path != NULL && !is_standard(output->path) && target_find(target, output->path) == NULL;
}

/* Whether the standard output goes to the file, so that the report would be lost with what the file holds now. */
static bool takes_report(const struct target *target)
{
    struct stat about;
    return target->there && target->about.st_nlink == 1 && fstat(STDOUT_FILENO, &about) == 0 &&
           same_inode(&target->about, &about);
}

int outputs_apart(const struct named *outputs, size_t count)
{
    struct target one = { .there = false };
    struct target other = { .there = false };
    for (size_t i = 0; i < count; i++) {
        if (!is_file(&outputs[i], &one)) {
            continue;
        }
        for (size_t k = i + 1; k < count; k++) {
            if (is_file(&outputs[k], &other) && target_same(&one, &other)) {
                return same_file(&outputs[i], &outputs[k]);
            }
        }
        if (takes_report(&one)) {
            return same_file(&outputs[i], &(struct named){ "the standard output", "-" });
        }
    }
    return 0;
}

static int write_standard(int file, const struct output *output)
{
    int error = write_all(file, output->at, output->length);
    return error == 0 ? 0 : not_written(file == STDOUT_FILENO ? "the standard output" : "the standard error", error);
}

int deliver(const struct output *outputs, size_t count)
{
    int status = 0;
    bool taken = false;
    drafts_begin();
    for (size_t i = 0; i < count && status == 0; i++) {
        if (is_standard(outputs[i].path)) {
            taken = true;
        } else if (outputs[i].path != NULL) {
            status = drafts_write(outputs[i].path, outputs[i].at, outputs[i].length);
        }
    }
    if (status == 0) {
        status = drafts_keep();
    }
    for (size_t i = 0; i < count && status == 0; i++) {
        if (is_standard(outputs[i].path)) {
            status = write_standard(STDOUT_FILENO, &outputs[i]);
        } else if (outputs[i].report) {
            status = write_standard(taken ? STDERR_FILENO : STDOUT_FILENO, &outputs[i]);
        }
    }
    if (status == 0) {
        status = drafts_place();
    }
    drafts_end();
    return status;
}
