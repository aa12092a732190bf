/* What sources declare of the C face: structs, functions and, in the header, the assertions about structs. */
#ifndef TEST_DECLARED_H
#define TEST_DECLARED_H

#include "test/words.h"

#include <stdbool.h>
#include <stddef.h>

enum { MOST_RECORDS = 200, MOST_MEMBERS = 24, MOST_FUNCTIONS = 64, MOST_ASSERTIONS = 400 };

/* type: by its name in Rattle, u8, u16, u32 or that of a struct; of a parameter as Rattle writes it, u32, Device,
 * &mut Device, &[u8] or &mut [u8]. count: 0 for no array. */
struct member {
    char name[WORD_ROOM];
    char type[WORD_ROOM];
    unsigned count;
};

struct record {
    char name[WORD_ROOM];
    const char *file;
    bool is_tuple;
    size_t members;
    struct member member[MOST_MEMBERS];
};

struct function {
    char name[WORD_ROOM];
    char result[WORD_ROOM];
    const char *file;
    size_t parameters;
    struct member parameter[MOST_MEMBERS];
};

/* The size of a struct, or where the member of that name stands in it. */
struct assertion {
    char record[WORD_ROOM];
    char member[WORD_ROOM];
};

struct side {
    size_t records, functions, assertions;
    struct record record[MOST_RECORDS];
    struct function function[MOST_FUNCTIONS];
    struct assertion assertion[MOST_ASSERTIONS];
};

/* A header of C: struct definitions, prototypes and the lines of POD_SIZE and POD_OFFSET. */
void declared_in_c(struct side *side, const char *path);

/* A source of Rattle: structs marked #[repr(C)] and exported functions. */
void declared_in_rattle(struct side *side, const char *path);

/* The struct of a name: the only one, or the one in the crate of the file `from`, which may be null. */
const struct record *declared_record(const struct side *side, const char *name, const char *from);

const struct function *declared_function(const struct side *side, const char *name);

/* Whether the header asserts it; an empty member stands for the size. */
bool declared_assertion(const struct side *side, const char *record, const char *member);

#endif
