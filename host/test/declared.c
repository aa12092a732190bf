/* Reading declarations from words, in C and in Rattle. */
#include "test/declared.h"

#include <ctype.h>
#include <stdio.h>
#include <string.h>

static struct record *new_record(struct side *side)
{
    if (side->records == MOST_RECORDS) {
        words_give_up("more structs than this test has room for");
    }
    struct record *record = &side->record[side->records++];
    record->file = word_last().file;
    return record;
}

static struct function *new_function(struct side *side)
{
    if (side->functions == MOST_FUNCTIONS) {
        words_give_up("more functions than this test has room for");
    }
    struct function *function = &side->function[side->functions++];
    function->file = word_last().file;
    return function;
}

static struct member *new_member(struct member *members, size_t *count)
{
    if (*count == MOST_MEMBERS) {
        words_give_up("more members than this test has room for");
    }
    return &members[(*count)++];
}

static struct assertion *new_assertion(struct side *side)
{
    if (side->assertions == MOST_ASSERTIONS) {
        words_give_up("more assertions than this test has room for");
    }
    return &side->assertion[side->assertions++];
}

/* The elements of an array. */
static unsigned take_count(void)
{
    const unsigned long count = word_take_number();
    if (count == 0 || count > 65536) {
        words_give_up("expected the number of an array's elements");
    }
    return (unsigned)count;
}

/* ---- C. */

/* A type, as Rattle would name it: uint8_t is u8, struct pod_times is Times. */
static void take_c_type(char type[WORD_ROOM])
{
    static const char *const numbers[][2] = {
        { "uint8_t", "u8" }, { "uint16_t", "u16" }, { "uint32_t", "u32" }, { "uint64_t", "u64" }, { "size_t", "usize" }
    };
    char name[WORD_ROOM];
    word_take("const");
    const bool is_struct = word_take("struct");
    word_take_name(name);
    snprintf(type, WORD_ROOM, "%s", strncmp(name, "pod_", 4) == 0 ? name + 4 : name);
    if (is_struct) {
        type[0] = (char)toupper((unsigned char)type[0]);
        return;
    }
    for (size_t i = 0; i < sizeof numbers / sizeof numbers[0]; i++) {
        if (strcmp(name, numbers[i][0]) == 0) {
            snprintf(type, WORD_ROOM, "%s", numbers[i][1]);
        }
    }
}

static void take_c_struct(struct side *side, const char *type)
{
    struct record *record = new_record(side);
    snprintf(record->name, WORD_ROOM, "%s", type);
    word_want("{");
    while (!word_take("}")) {
        char member_type[WORD_ROOM];
        take_c_type(member_type);
        do {
            struct member *member = new_member(record->member, &record->members);
            snprintf(member->type, WORD_ROOM, "%s", member_type);
            word_take_name(member->name);
            if (word_take("[")) {
                member->count = take_count();
                word_want("]");
            }
        } while (word_take(","));
        word_want(";");
    }
    word_want(";");
}

/* One parameter; a pointer to bytes takes the length behind it along. */
static void take_c_parameter(struct function *function)
{
    struct member *parameter = new_member(function->parameter, &function->parameters);
    char type[WORD_ROOM];
    const char *mut = word_is("const") ? "" : "mut ";
    take_c_type(type);
    const bool is_pointer = word_take("*");
    word_take_name(parameter->name);
    if (!is_pointer) {
        snprintf(parameter->type, WORD_ROOM, "%s", type);
    } else if (strcmp(type, "u8") != 0) {
        snprintf(parameter->type, WORD_ROOM, "&%s%.*s", mut, WORD_ROOM - 8, type);
    } else {
        char length[WORD_ROOM];
        snprintf(parameter->type, WORD_ROOM, "&%s[u8]", mut);
        snprintf(length, WORD_ROOM, "%.*s_len", WORD_ROOM - 8, parameter->name);
        word_want(",");
        word_want("size_t");
        word_want(length);
    }
}

static void take_c_function(struct side *side, const char *result)
{
    struct function *function = new_function(side);
    snprintf(function->result, WORD_ROOM, "%s", result);
    word_take_name(function->name);
    word_want("(");
    do {
        take_c_parameter(function);
    } while (word_take(","));
    word_want(")");
    word_want(";");
}

/* A line of POD_SIZE, or of POD_OFFSET where it has a member. */
static void take_c_assertion(struct side *side, bool has_member)
{
    struct assertion found = { .member = "" };
    word_want("(");
    take_c_type(found.record);
    word_want(",");
    if (has_member) {
        word_take_name(found.member);
        word_want(",");
    }
    (void)word_take_number();
    word_want(")");
    word_want(";");
    *new_assertion(side) = found;
}

void declared_in_c(struct side *side, const char *path)
{
    words_read(path, true);
    while (words_left()) {
        char type[WORD_ROOM];
        if (word_take("enum")) {
            words_skip_past(";");
        } else if (word_take("POD_SIZE")) {
            take_c_assertion(side, false);
        } else if (word_take("POD_OFFSET")) {
            take_c_assertion(side, true);
        } else if (word_take("extern")) { /* what C++ reads around the face */
            word_want("\"C\"");
            word_want("{");
        } else if (!word_take("}")) {
            take_c_type(type);
            if (word_is("{")) {
                take_c_struct(side, type);
            } else {
                take_c_function(side, type);
            }
        }
    }
}

/* ---- Rattle. */

/* A type by its last name, a::b::C as C. */
static void take_rattle_name(char type[WORD_ROOM])
{
    word_take_name(type);
    while (word_take(":")) {
        word_want(":");
        word_take_name(type);
    }
}

/* The same, with the count where it is an array. */
static void take_rattle_type(char type[WORD_ROOM], unsigned *count)
{
    if (!word_take("[")) {
        take_rattle_name(type);
        return;
    }
    take_rattle_name(type);
    word_want(";");
    *count = take_count();
    word_want("]");
}

static void take_rattle_struct(struct side *side, bool is_repr_c)
{
    char name[WORD_ROOM];
    word_take_name(name);
    if (!is_repr_c || word_is(";")) {
        return;
    }
    struct record *record = new_record(side);
    snprintf(record->name, WORD_ROOM, "%s", name);
    record->is_tuple = word_take("(");
    if (!record->is_tuple) {
        word_want("{");
    }
    while (!word_take(")") && !word_take("}")) {
        struct member *member = new_member(record->member, &record->members);
        word_take("pub");
        if (record->is_tuple) {
            snprintf(member->name, WORD_ROOM, "%zu", record->members - 1);
        } else {
            word_take_name(member->name);
            word_want(":");
        }
        take_rattle_type(member->type, &member->count);
        word_take(",");
    }
}

static void take_rattle_parameter(struct function *function)
{
    struct member *parameter = new_member(function->parameter, &function->parameters);
    char type[WORD_ROOM];
    word_take("mut");
    word_take_name(parameter->name);
    word_want(":");
    if (!word_take("&")) {
        take_rattle_name(parameter->type);
        return;
    }
    if (word_take("'")) {
        word_skip();
    }
    const char *mut = word_take("mut") ? "mut " : "";
    const bool is_slice = word_take("[");
    take_rattle_name(type);
    if (is_slice) {
        word_want("]");
    }
    snprintf(parameter->type, WORD_ROOM, is_slice ? "&%s[%.*s]" : "&%s%.*s", mut, WORD_ROOM - 8, type);
}

static void take_rattle_function(struct side *side)
{
    struct function *function = new_function(side);
    word_take_name(function->name);
    if (word_take("<")) {
        words_skip_past(">");
    }
    word_want("(");
    while (!word_take(")")) {
        take_rattle_parameter(function);
        word_take(",");
    }
    if (word_take("-")) {
        word_want(">");
        take_rattle_name(function->result);
    }
}

void declared_in_rattle(struct side *side, const char *path)
{
    bool is_repr_c = false;
    words_read(path, false);
    while (words_left()) {
        if (word_take("repr")) {
            is_repr_c = word_take("(") && word_take("C");
        } else if (word_take("struct")) {
            take_rattle_struct(side, is_repr_c);
            is_repr_c = false;
        } else if (word_take("extern")) {
            if (word_take("\"C\"") && word_take("fn")) {
                take_rattle_function(side);
            }
        } else {
            is_repr_c = is_repr_c && !word_is("fn") && !word_is("enum") && !word_is("impl");
            word_skip();
        }
    }
}

/* ---- Finding. */

/* Whether two files are in the folder of one crate. */
static bool same_crate(const char *left, const char *right)
{
    const char *left_end = strstr(left, "/src/"), *right_end = strstr(right, "/src/");
    return left_end != NULL && right_end != NULL && left_end - left == right_end - right &&
           strncmp(left, right, (size_t)(left_end - left)) == 0;
}

const struct record *declared_record(const struct side *side, const char *name, const char *from)
{
    const struct record *found = NULL;
    size_t others = 0;
    for (size_t i = 0; i < side->records; i++) {
        const struct record *record = &side->record[i];
        if (strcmp(record->name, name) != 0) {
            continue;
        }
        if (from != NULL && same_crate(record->file, from)) {
            return record;
        }
        others += found != NULL ? 1 : 0;
        found = record;
    }
    return others == 0 ? found : NULL;
}

const struct function *declared_function(const struct side *side, const char *name)
{
    for (size_t i = 0; i < side->functions; i++) {
        if (strcmp(side->function[i].name, name) == 0) {
            return &side->function[i];
        }
    }
    return NULL;
}

bool declared_assertion(const struct side *side, const char *record, const char *member)
{
    for (size_t i = 0; i < side->assertions; i++) {
        const struct assertion *assertion = &side->assertion[i];
        if (strcmp(assertion->record, record) == 0 && strcmp(assertion->member, member) == 0) {
            return true;
        }
    }
    return false;
}
