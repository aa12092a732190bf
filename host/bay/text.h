/* Text that grows: a report is put together here and leaves in one go. */
#ifndef BAY_TEXT_H
#define BAY_TEXT_H

#include <stddef.h>
#include <stdint.h>

struct text {
    char *bytes;
    size_t length;
    size_t room;
};

void text_add(struct text *text, const char *form, ...) __attribute__((format(printf, 2, 3)));
void text_free(struct text *text);

/* Memory, or the end of the program with a message. */
void *must_have(size_t bytes);

/* A number with a comma at each thousand. */
struct counted {
    char text[32];
};
struct counted counted(uint64_t number);

#endif
