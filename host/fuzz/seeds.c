/* Reading seeds. */
#include "fuzz/seeds.h"

#include <dirent.h>
#include <errno.h>
#include <limits.h>
#include <stdio.h>
#include <stdlib.h>
#include <string.h>

bool input_read(const char *path, struct input *out)
{
    FILE *file = fopen(path, "rb");
    out->length = file == NULL ? 0 : fread(out->at, 1, INPUT_MOST, file);
    bool whole = file != NULL && ferror(file) == 0;
    if (!whole) {
        (void)fprintf(stderr, "fuzz: %s cannot be read: %s\n", path, strerror(errno));
    }
    if (file != NULL) {
        (void)fclose(file);
    }
    return whole;
}

static int is_seen(const struct dirent *entry)
{
    return entry->d_name[0] != '.';
}

static bool add(struct seeds *seeds, const char *folder, const char *name)
{
    char path[PATH_MAX];
    int length = snprintf(path, sizeof path, "%s/%s", folder, name);
    struct input *input = length > 0 && length < PATH_MAX && seeds->count < SEEDS_MOST ? malloc(sizeof *input) : NULL;
    if (input == NULL) {
        (void)fprintf(stderr, "fuzz: there is no room for %s\n", name);
        return false;
    }
    seeds->inputs[seeds->count++] = input;
    return input_read(path, input);
}

bool seeds_read(const char *folder, const char *kind, struct seeds *out)
{
    char path[PATH_MAX];
    struct dirent **names = NULL;
    *out = (struct seeds){ 0, { NULL } };
    int length = snprintf(path, sizeof path, "%s/%s", folder, kind);
    int count = length > 0 && length < PATH_MAX ? scandir(path, &names, is_seen, alphasort) : -1;
    bool all = count > 0;
    for (int i = 0; i < count; i++) {
        all = all && add(out, path, names[i]->d_name);
        free(names[i]);
    }
    free(names);
    if (count <= 0) {
        (void)fprintf(stderr, "fuzz: expected seeds in %s/%s, found none\n", folder, kind);
    }
    return all;
}

void seeds_free(struct seeds *seeds)
{
    for (size_t i = 0; i < seeds->count; i++) {
        free(seeds->inputs[i]);
    }
    seeds->count = 0;
}
