/* Files as bay treats them: read whole, and replaced whole or not at all. A name of "-" is the standard input or output. */
#ifndef BAY_FILES_H
#define BAY_FILES_H

#include <stdbool.h>
#include <stddef.h>
#include <stdint.h>

/* What was read. `more` says that the file goes on past what was wanted of it; then one byte too many stands here. */
struct bytes {
    uint8_t *at;
    size_t length;
    bool more;
};

/* Reads up to `most` bytes and one more if it is there. Gives 0 or a status after a message. */
int file_read(const char *path, size_t most, struct bytes *out);
void bytes_free(struct bytes *bytes);

bool is_standard(const char *path);

/* Whether something has this name. What cannot be looked at counts as there, so that whoever reads it tells why. */
bool file_exists(const char *path);

/* One thing that a command leaves behind. A null path is left out. A report goes to the standard output, or to the
 * standard error where another output has taken that. */
struct output {
    const char *path;
    const void *at;
    size_t length;
    bool report;
};

/* An output as the command line names it, as "--save". A null path is left out. */
struct named {
    const char *name;
    const char *path;
};

/* Gives 0 where no two of the outputs, and none of them and the standard output, lead to the same file; else a status
 * after a message. */
int outputs_apart(const struct named *outputs, size_t count);

/* Leaves all outputs or none: every file is written beside its target and brought to disk, then the standard output is
 * written, and only then are the targets replaced. Where one cannot be, those before it are put back. A signal in
 * between removes what stands beside. At most four files. Gives 0, or a status after a message. */
int deliver(const struct output *outputs, size_t count);

/* Writes all of it. Gives 0 or the errno. */
int write_all(int file, const void *at, size_t length);

/* Says that a file could not be written whole, and gives the status. */
int not_written(const char *path, int error);

#endif
