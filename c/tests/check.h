/* What the tests of the calls share: what a call may write, with guards around each array; the calls on one module and on lists; and the comparison,
   byte for byte, of what was written with what is right. */
#include <stddef.h>
#include <stdio.h>
#include <string.h>

#include "modules.h"

/* What a call writes, by the kinds of its arrays. */
enum array { REPORT, MESSAGE, TYPES, FUNCTIONS, IMPORTS, EXPORTS, NAMES, REPORTS, QUERIES, ARRAYS };
struct written {
    uint8_t guard_0[128];
    struct ruthvelka_report report[1];
    uint8_t guard_1[128];
    char message[96];
    uint8_t guard_2[128];
    uint32_t types[12];
    uint8_t guard_3[128];
    uint32_t functions[12];
    uint8_t guard_4[128];
    struct ruthvelka_extern imports[12];
    uint8_t guard_5[128];
    struct ruthvelka_extern exports[12];
    uint8_t guard_6[128];
    char names[80];
    uint8_t guard_7[128];
    struct ruthvelka_report reports[8];
    uint8_t guard_8[128];
    struct ruthvelka_query queries[12];
    uint8_t guard_9[128];
};
#define PLACE_OF(array) #array, offsetof(struct written, array), sizeof((struct written *)NULL)->array[0]
static const struct {
    const char *name;
    size_t start, size;
} arrays[ARRAYS] = {{PLACE_OF(report)}, {PLACE_OF(message)}, {PLACE_OF(types)}, {PLACE_OF(functions)}, {PLACE_OF(imports)}, {PLACE_OF(exports)},
    {PLACE_OF(names)}, {PLACE_OF(reports)}, {PLACE_OF(queries)}};

/* What a call reads. */
struct input {
    const uint8_t *bytes;
    size_t length;
    const struct ruthvelka_bytes *modules;
    size_t count;
    uint64_t features;
};

/* The room of each array, and which of them are given as null pointers. */
struct rooms {
    size_t of[ARRAYS];
    int is_null[ARRAYS];
};

static void *place(struct written *to, const struct rooms *rooms, enum array it) {
    return rooms->is_null[it] ? NULL : (char *)to + arrays[it].start;
}

static uint32_t validate(const struct input *in, const struct rooms *rooms, struct written *to) {
    return ruthvelka_validate(in->bytes, in->length, in->features, place(to, rooms, MESSAGE), rooms->of[MESSAGE], place(to, rooms, REPORT));
}

static uint32_t validate_with_ids(const struct input *in, const struct rooms *rooms, struct written *to) {
    return ruthvelka_validate_with_ids(in->bytes, in->length, in->features, place(to, rooms, MESSAGE), rooms->of[MESSAGE], place(to, rooms, REPORT),
        place(to, rooms, TYPES), rooms->of[TYPES], place(to, rooms, FUNCTIONS), rooms->of[FUNCTIONS]);
}

static uint32_t validate_with_externs(const struct input *in, const struct rooms *rooms, struct written *to) {
    return ruthvelka_validate_with_externs(in->bytes, in->length, in->features, place(to, rooms, MESSAGE), rooms->of[MESSAGE],
        place(to, rooms, REPORT), place(to, rooms, IMPORTS), rooms->of[IMPORTS], place(to, rooms, EXPORTS), rooms->of[EXPORTS],
        place(to, rooms, NAMES), rooms->of[NAMES]);
}

static uint32_t validate_list(const struct input *in, const struct rooms *rooms, struct written *to) {
    return ruthvelka_validate_list(in->modules, in->count, in->features, place(to, rooms, REPORTS), rooms->of[REPORTS], place(to, rooms, TYPES),
        rooms->of[TYPES], place(to, rooms, FUNCTIONS), rooms->of[FUNCTIONS]);
}

static uint32_t validate_list_with_queries(const struct input *in, const struct rooms *rooms, struct written *to) {
    return ruthvelka_validate_list_with_queries(in->modules, in->count, in->features, place(to, rooms, REPORTS), rooms->of[REPORTS],
        place(to, rooms, QUERIES), rooms->of[QUERIES]);
}

/* The calls, and which arrays each has. */
#define SINGLE_CALLS 3
#define CALLS 5
static const struct call {
    const char *name;
    uint32_t (*made)(const struct input *in, const struct rooms *rooms, struct written *to);
    int has[ARRAYS];
} calls[CALLS] = {{"validate", validate, {[REPORT] = 1, [MESSAGE] = 1}},
    {"validate_with_ids", validate_with_ids, {[REPORT] = 1, [MESSAGE] = 1, [TYPES] = 1, [FUNCTIONS] = 1}},
    {"validate_with_externs", validate_with_externs, {[REPORT] = 1, [MESSAGE] = 1, [IMPORTS] = 1, [EXPORTS] = 1, [NAMES] = 1}},
    {"validate_list", validate_list, {[REPORTS] = 1, [TYPES] = 1, [FUNCTIONS] = 1}},
    {"validate_list_with_queries", validate_list_with_queries, {[REPORTS] = 1, [QUERIES] = 1}}};

/* The right answer: the result, and what is written of each array where there is room for all. */
struct answer {
    uint32_t result;
    struct {
        const void *items;
        size_t count;
    } of[ARRAYS];
};

static long wrong;

static void expect(const char *what, int is_right) {
    if (is_right) return;
    printf("wrong: %s\n", what);
    wrong++;
}

/* What stands there before a call: each byte is 7, but for the questions that are asked. */
static void clear(struct written *it, const struct ruthvelka_query *asked, size_t count) {
    memset(it, 7, sizeof *it);
    if (count) memcpy(it->queries, asked, count * sizeof *asked);
}

/* Of each array that the call has, and that isn't null, as much of the right answer as there is room for; and the length of all names, where the
   call has them. */
static void write_right(struct written *to, const struct call *call, const struct answer *right, const struct rooms *rooms) {
    for (int it = 0; it < ARRAYS; it++) {
        const size_t count = right->of[it].count < rooms->of[it] ? right->of[it].count : rooms->of[it];
        if (call->has[it] && !rooms->is_null[it] && count) memcpy((char *)to + arrays[it].start, right->of[it].items, count * arrays[it].size);
    }
    if (call->has[NAMES] && !rooms->is_null[REPORT]) to->report->names_length = right->of[NAMES].count;
}

/* Says which array is wrong, or that bytes around them are. */
static void expect_written(const char *what, const struct written *to, const struct written *right) {
    int is_named = 0;
    for (int it = 0; it < ARRAYS; it++) {
        const size_t start = arrays[it].start, end = it + 1 < ARRAYS ? arrays[it + 1].start - 128 : offsetof(struct written, guard_9);
        if (!memcmp((const char *)to + start, (const char *)right + start, end - start)) continue;
        printf("wrong: %s: %s\n", what, arrays[it].name);
        wrong++, is_named = 1;
    }
    if (!is_named && memcmp(to, right, sizeof *to)) expect(what, 0), printf("       bytes around the arrays\n");
}

/* Makes the call, and compares its result and all that it may write with what is right. */
static inline void expect_answer(const char *what, const struct call *call, const struct input *in, const struct rooms *rooms,
    const struct answer *right, const struct ruthvelka_query *asked, size_t asked_count) {
    struct written to, wanted;
    char text[160];
    clear(&to, asked, asked_count), clear(&wanted, asked, asked_count);
    write_right(&wanted, call, right, rooms);
    snprintf(text, sizeof text, "%s: %s", call->name, what);
    const uint32_t result = call->made(in, rooms, &to);
    if (result != right->result) printf("wrong: %s: the result is %u in place of %u\n", text, (unsigned)result, (unsigned)right->result), wrong++;
    expect_written(text, &to, &wanted);
}
