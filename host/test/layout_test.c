/* Tests that C and Rattle mean the same by the C face: the structs of the record and of every answer field by field, in
 * order, width and count, and the parameters of every function. The functions that the header declares are those that
 * the crates export, and the header asserts how each of its structs lies in memory. Nothing else compares the two.
 *
 *   layout_test POD_H RT_FILE.. */
#include "test/check.h"
#include "test/declared.h"

#include <stdbool.h>
#include <stdio.h>
#include <stdlib.h>
#include <string.h>

enum { MOST_LEAVES = 200, PATH_ROOM = 4 * WORD_ROOM };

static struct side c_side, rt_side;

/* A number that a struct comes down to: where it is, how wide, and how many of it stand in a row. */
struct leaf {
    char path[PATH_ROOM];
    unsigned width, count;
};

struct leaves {
    size_t count;
    struct leaf leaf[MOST_LEAVES];
};

/* The bytes of a number's type, 0 for any other. */
static unsigned width_of(const char *type)
{
    static const struct {
        const char *name;
        unsigned width;
    } numbers[] = { { "u8", 1 }, { "u16", 2 }, { "u32", 4 }, { "u64", 8 }, { "usize", 8 } };
    for (size_t i = 0; i < sizeof numbers / sizeof numbers[0]; i++) {
        if (strcmp(type, numbers[i].name) == 0) {
            return numbers[i].width;
        }
    }
    return 0;
}

/* The path of a member; a tuple struct of one number is that number. */
static void path_of(const struct record *record, const struct member *member, const char *above, char path[PATH_ROOM])
{
    if (record->is_tuple && record->members == 1) {
        snprintf(path, PATH_ROOM, "%s", above);
    } else {
        snprintf(path, PATH_ROOM, "%.*s%s%s", 2 * WORD_ROOM, above, above[0] == '\0' ? "" : ".", member->name);
    }
}

/* Adds what a struct comes down to; false where a type is not known on this side. */
static bool flatten(const struct side *side, const struct record *record, const char *above, struct leaves *leaves)
{
    for (size_t i = 0; i < record->members; i++) {
        const struct member *member = &record->member[i];
        const unsigned width = width_of(member->type);
        char path[PATH_ROOM];
        path_of(record, member, above, path);
        if (width != 0 && leaves->count < MOST_LEAVES) {
            struct leaf *leaf = &leaves->leaf[leaves->count++];
            snprintf(leaf->path, sizeof leaf->path, "%s", path);
            leaf->width = width;
            leaf->count = member->count == 0 ? 1 : member->count;
            continue;
        }
        const struct record *inside = declared_record(side, member->type, record->file);
        if (inside == NULL || member->count != 0) {
            fault("%s in %s: expected a number or a struct of the record, found %s", path, record->file, member->type);
            return false;
        }
        if (!flatten(side, inside, path, leaves)) {
            return false;
        }
    }
    return true;
}

static void compare_structs(const struct record *c, const struct record *rt)
{
    static struct leaves c_leaves, rt_leaves;
    c_leaves.count = rt_leaves.count = 0;
    if (!flatten(&c_side, c, "", &c_leaves) || !flatten(&rt_side, rt, "", &rt_leaves)) {
        return;
    }
    for (size_t i = 0; i < c_leaves.count && i < rt_leaves.count; i++) {
        const struct leaf *left = &c_leaves.leaf[i], *right = &rt_leaves.leaf[i];
        if (strcmp(left->path, right->path) != 0) {
            fault("field %zu: expected %s as in %s, found %s", i + 1, right->path, rt->file, left->path);
        } else if (left->width != right->width || left->count != right->count) {
            fault("%s: expected %u of %u bytes as in %s, found %u of %u bytes", left->path, right->count, right->width,
                  rt->file, left->count, left->width);
        }
    }
    expect((uint32_t)rt_leaves.count, (uint32_t)c_leaves.count, "number of fields, as in %s", rt->file);
}

/* A type by its name on both sides: a number, or two structs that are the same. */
static void compare_types(const char *c_type, const char *rt_type, const char *rt_file)
{
    if (width_of(c_type) != 0 || width_of(rt_type) != 0) {
        if (strcmp(c_type, rt_type) != 0) {
            fault("result: expected %s as in %s, found %s", rt_type, rt_file, c_type);
        }
        return;
    }
    const struct record *c = declared_record(&c_side, c_type, NULL);
    const struct record *rt = declared_record(&rt_side, rt_type, rt_file);
    if (c == NULL) {
        fault("expected one struct for %s in the header, found none", c_type);
    }
    if (rt == NULL) {
        fault("expected one struct %s marked #[repr(C)], found none or several", rt_type);
    }
    if (c != NULL && rt != NULL) {
        compare_structs(c, rt);
    }
}

/* Parameters of the same type in the same place; and a name that both use stands in the same place. */
static void compare_parameters(const struct function *c, const struct function *rt)
{
    expect((uint32_t)rt->parameters, (uint32_t)c->parameters, "number of parameters, as in %s", rt->file);
    for (size_t i = 0; i < c->parameters && i < rt->parameters; i++) {
        const struct member *left = &c->parameter[i], *right = &rt->parameter[i];
        if (strcmp(left->type, right->type) != 0) {
            fault("parameter %s: expected %s as in %s, found %s", left->name, right->type, rt->file, left->type);
        }
        for (size_t j = 0; j < c->parameters; j++) {
            if (i != j && strcmp(c->parameter[j].name, right->name) == 0) {
                fault("parameter %s: expected it in place %zu as in %s, found it in place %zu", right->name, i + 1,
                      rt->file, j + 1);
            }
        }
    }
}

static void test_records(void)
{
    static const char *const names[] = { "Times", "Frame", "Operation", "Controller", "Device" };
    for (size_t i = 0; i < sizeof names / sizeof names[0]; i++) {
        check_group("layout: %s", names[i]);
        compare_types(names[i], names[i], "");
    }
}

static void test_functions(void)
{
    for (size_t i = 0; i < rt_side.functions; i++) {
        const struct function *rt = &rt_side.function[i], *c = declared_function(&c_side, rt->name);
        check_group("layout: %s", rt->name);
        if (c == NULL) {
            fault("expected its prototype in the header, since %s exports it; found none", rt->file);
        } else {
            compare_types(c->result, rt->result, rt->file);
            compare_parameters(c, rt);
        }
    }
    check_group("layout: every function of the header is exported");
    for (size_t i = 0; i < c_side.functions; i++) {
        if (declared_function(&rt_side, c_side.function[i].name) == NULL) {
            fault("%s: expected a crate that exports it, found none", c_side.function[i].name);
        }
    }
}

/* What the assertions say is the compiler's to test; here it counts that none is missing. */
static void test_assertions(void)
{
    check_group("layout: the header asserts the size of every struct and the offset of every member");
    expect(1, c_side.records > 0, "whether the header has structs");
    for (size_t i = 0; i < c_side.records; i++) {
        const struct record *record = &c_side.record[i];
        if (!declared_assertion(&c_side, record->name, "")) {
            fault("%s: expected its size asserted in the header, found no such line", record->name);
        }
        for (size_t j = 0; j < record->members; j++) {
            if (!declared_assertion(&c_side, record->name, record->member[j].name)) {
                fault("%s.%s: expected its offset asserted in the header, found no such line", record->name,
                      record->member[j].name);
            }
        }
    }
}

int main(int count, char **arguments)
{
    if (count < 3) {
        fprintf(stderr, "usage: layout_test POD_H RT_FILE..\n");
        return EXIT_FAILURE;
    }
    declared_in_c(&c_side, arguments[1]);
    for (int i = 2; i < count; i++) {
        declared_in_rattle(&rt_side, arguments[i]);
    }
    test_records();
    test_functions();
    test_assertions();
    return check_end("layout_test");
}
