/* Printing tables. */
#include "speed/text.h"

#include <stdio.h>
#include <string.h>

void print_left(const char *word, int columns)
{
    for (const char *at = word; *at != '\0'; at++) {
        /* the bytes behind the first of a character take no column */
        columns -= ((unsigned char)*at & 0xC0) != 0x80 ? 1 : 0;
    }
    printf("| %s%*s ", word, columns > 0 ? columns : 0, "");
}

void print_rule(const int *columns, size_t count)
{
    static const char dashes[] = "--------------------------------------------------";
    printf("|-%.*s-", columns[0], dashes);
    for (size_t i = 1; i < count; i++) {
        printf("|-%.*s:", columns[i], dashes);
    }
    printf("|\n");
}

const char *with_commas(uint64_t number)
{
    static char text[32];
    char *at = text + sizeof text - 1;
    *at = '\0';
    for (uint32_t digits = 0; digits == 0 || number != 0; digits++, number /= 10) {
        if (digits != 0 && digits % 3 == 0) {
            *--at = ',';
        }
        *--at = (char)('0' + number % 10);
    }
    return at;
}

void print_from(const char *path, const char *word, const char *otherwise)
{
    FILE *file = fopen(path, "r");
    char line[512];
    const char *found = NULL;
    while (file != NULL && found == NULL && fgets(line, sizeof line, file) != NULL) {
        if (strncmp(line, word, strlen(word)) == 0) {
            found = strchr(line, ':');
        }
    }
    if (file != NULL) {
        fclose(file);
    }
    if (found == NULL) {
        printf("%s", otherwise);
        return;
    }
    found += 1 + strspn(found + 1, " \t");
    printf("%.*s", (int)strcspn(found, "\n"), found);
}
