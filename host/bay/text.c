/* Growing text and numbers as a person writes them. */
#include "bay/text.h"

#include "bay/trouble.h"

#include <stdarg.h>
#include <stdio.h>
#include <stdlib.h>

static void *or_end(void *memory)
{
    if (memory == NULL) {
        exit(trouble(TROUBLE_SYSTEM, "out of memory\n"
                                     "  expected  some megabytes of memory\n"
                                     "  found     none left\n"
                                     "  do        end other programs and try again"));
    }
    return memory;
}

void *must_have(size_t bytes)
{
    return or_end(malloc(bytes == 0 ? 1 : bytes));
}

static void make_room(struct text *text, size_t more)
{
    if (text->room - text->length > more) {
        return;
    }
    size_t room = (text->room + more + 256) * 2;
    text->bytes = or_end(realloc(text->bytes, room));
    text->room = room;
}

void text_add(struct text *text, const char *form, ...)
{
    va_list rest;
    va_start(rest, form);
    int length = vsnprintf(NULL, 0, form, rest);
    va_end(rest);
    if (length < 0) {
        return;
    }
    make_room(text, (size_t)length + 1);
    va_start(rest, form);
    int laid = vsnprintf(text->bytes + text->length, text->room - text->length, form, rest);
    va_end(rest);
    if (laid == length) {
        text->length += (size_t)length;
    }
}

void text_free(struct text *text)
{
    free(text->bytes);
    *text = (struct text){ NULL, 0, 0 };
}

struct counted counted(uint64_t number)
{
    struct counted out;
    char digits[24];
    int length = snprintf(digits, sizeof digits, "%llu", (unsigned long long)number);
    size_t at = 0;
    for (int i = 0; i < length; i++) {
        if (i > 0 && (length - i) % 3 == 0) {
            out.text[at++] = ',';
        }
        out.text[at++] = digits[i];
    }
    out.text[at] = '\0';
    return out;
}
