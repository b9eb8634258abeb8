/* Which arguments c/ruthvelka.c passes on. This is linked with functions in place of the proved ones, which keep what they were given: each argument
   comes as it was given, but for null pointers, in whose place something stands; no wrong call comes through; and their results go back. */
#include <ruthvelka.h>
#include <stddef.h>
#include <stdio.h>
#include <stdlib.h>
#include <string.h>

/* What the last proved call was given: its places, and a count behind each, but for a report's. */
#define MOST 5
static struct passed {
    const char *name;
    uint64_t features;
    const void *places[MOST];
    size_t counts[MOST];
    const void *report;
} passed;
/* The proposals that are known here. */
static const uint64_t known = UINT64_C(1) << 40 | UINT64_C(1) << 3;
/* And the modules of its list. */
#define MODULES 4
static struct ruthvelka_bytes passed_modules[MODULES];

uint32_t ruthvelka_proved_version(void) {
    return 2000;
}

uint64_t ruthvelka_proved_features(void) {
    return known;
}

uint64_t ruthvelka_proved_feature(const uint8_t *name, size_t length) {
    passed = (struct passed){"feature", 0, {name}, {length}, NULL};
    return UINT64_C(1) << 35;
}

uint64_t ruthvelka_proved_feature_name(uint64_t feature, uint8_t *name, size_t name_room) {
    passed = (struct passed){"feature_name", feature, {name}, {name_room}, NULL};
    return 501;
}

uint32_t ruthvelka_proved_validate(const uint8_t *bytes, size_t length, uint64_t features, uint8_t *message, size_t message_room,
    struct ruthvelka_report *report) {
    passed = (struct passed){"validate", features, {bytes, message}, {length, message_room}, report};
    return 502;
}

uint32_t ruthvelka_proved_validate_with_ids(const uint8_t *bytes, size_t length, uint64_t features, uint8_t *message, size_t message_room,
    struct ruthvelka_report *report, uint32_t *type_ids, size_t type_room, uint32_t *function_ids, size_t function_room) {
    passed = (struct passed){"validate_with_ids", features, {bytes, message, type_ids, function_ids},
        {length, message_room, type_room, function_room}, report};
    return 503;
}

uint32_t ruthvelka_proved_validate_with_externs(const uint8_t *bytes, size_t length, uint64_t features, uint8_t *message, size_t message_room,
    struct ruthvelka_report *report, struct ruthvelka_extern *imports, size_t import_room, struct ruthvelka_extern *exports, size_t export_room,
    uint8_t *names, size_t name_room) {
    passed = (struct passed){"validate_with_externs", features, {bytes, message, imports, exports, names},
        {length, message_room, import_room, export_room, name_room}, report};
    return 504;
}

static void keep_list(const struct ruthvelka_bytes *modules, size_t count) {
    memset(passed_modules, 0, sizeof passed_modules);
    memcpy(passed_modules, modules, (count < MODULES ? count : MODULES) * sizeof *modules);
}

uint32_t ruthvelka_proved_validate_list(const struct ruthvelka_bytes *modules, size_t module_count, uint64_t features,
    struct ruthvelka_report *reports, size_t report_room, uint32_t *type_ids, size_t type_room, uint32_t *function_ids, size_t function_room) {
    passed = (struct passed){"validate_list", features, {modules, reports, type_ids, function_ids},
        {module_count, report_room, type_room, function_room}, NULL};
    keep_list(modules, module_count);
    return 505;
}

uint32_t ruthvelka_proved_validate_list_with_queries(const struct ruthvelka_bytes *modules, size_t module_count, uint64_t features,
    struct ruthvelka_report *reports, size_t report_room, struct ruthvelka_query *queries, size_t query_count) {
    passed = (struct passed){"validate_list_with_queries", features, {modules, reports, queries}, {module_count, report_room, query_count}, NULL};
    keep_list(modules, module_count);
    return 506;
}

/* The calls, from such arguments. */
typedef uint64_t call(const struct passed *it);

static uint64_t feature(const struct passed *it) {
    return ruthvelka_feature(it->places[0], it->counts[0]);
}

static uint64_t feature_name(const struct passed *it) {
    return ruthvelka_feature_name(it->features, (char *)it->places[0], it->counts[0]);
}

static uint64_t validate(const struct passed *it) {
    return ruthvelka_validate(it->places[0], it->counts[0], it->features, (char *)it->places[1], it->counts[1], (void *)it->report);
}

static uint64_t validate_with_ids(const struct passed *it) {
    return ruthvelka_validate_with_ids(it->places[0], it->counts[0], it->features, (char *)it->places[1], it->counts[1], (void *)it->report,
        (void *)it->places[2], it->counts[2], (void *)it->places[3], it->counts[3]);
}

static uint64_t validate_with_externs(const struct passed *it) {
    return ruthvelka_validate_with_externs(it->places[0], it->counts[0], it->features, (char *)it->places[1], it->counts[1], (void *)it->report,
        (void *)it->places[2], it->counts[2], (void *)it->places[3], it->counts[3], (char *)it->places[4], it->counts[4]);
}

static uint64_t validate_list(const struct passed *it) {
    return ruthvelka_validate_list(it->places[0], it->counts[0], it->features, (void *)it->places[1], it->counts[1], (void *)it->places[2],
        it->counts[2], (void *)it->places[3], it->counts[3]);
}

static uint64_t validate_list_with_queries(const struct passed *it) {
    return ruthvelka_validate_list_with_queries(it->places[0], it->counts[0], it->features, (void *)it->places[1], it->counts[1],
        (void *)it->places[2], it->counts[2]);
}

/* Each call with the number of its arrays, whether the first of them is a list of modules, whether it has a report, and its result. */
static const struct {
    const char *name;
    call *made;
    int arrays, has_list, has_report;
    uint64_t result;
} calls[] = {{"validate", validate, 2, 0, 1, 502}, {"validate_with_ids", validate_with_ids, 4, 0, 1, 503},
    {"validate_with_externs", validate_with_externs, 5, 0, 1, 504}, {"validate_list", validate_list, 4, 1, 0, 505},
    {"validate_list_with_queries", validate_list_with_queries, 3, 1, 0, 506}, {"feature_name", feature_name, 1, 0, 0, 501}};
#define CALLS (sizeof calls / sizeof *calls)

static long wrong, blocks;
static int is_memory_refused;
/* The arrays that are given. The first one is a list of modules too. */
static const uint8_t bytes[MODULES];
static struct ruthvelka_bytes lists[MOST][MODULES] = {{{&bytes[0], 1}, {&bytes[1], 1}, {&bytes[2], 1}, {&bytes[3], 1}}};
static struct ruthvelka_report report;

static void expect(const char *name, const char *what, int is_right) {
    if (is_right) return;
    printf("wrong: %s: %s\n", name, what);
    wrong++;
}

static void *allocate(size_t size) {
    void *block = is_memory_refused ? NULL : malloc(size);
    blocks += block != NULL;
    return block;
}

static void release(void *block) {
    blocks -= block != NULL;
    free(block);
}

/* Right arguments, of which all counts differ. */
static struct passed given(size_t which) {
    struct passed it = {calls[which].name, known, {NULL}, {0}, calls[which].has_report ? &report : NULL};
    for (int at = 0; at < calls[which].arrays; at++) it.places[at] = lists[at], it.counts[at] = 40 + (size_t)at;
    if (calls[which].has_list) it.counts[0] = MODULES;
    return it;
}

/* Makes the call, which has to pass on what it was given. */
static void expect_passed(const char *what, size_t which, const struct passed *it) {
    memset(&passed, 0, sizeof passed);
    expect(calls[which].name, what, calls[which].made(it) == calls[which].result && passed.name && !strcmp(passed.name, it->name)
            && passed.features == it->features && !memcmp(passed.counts, it->counts, sizeof it->counts));
    for (int at = 0; at < calls[which].arrays; at++) {
        const void *place = passed.places[at];
        expect(calls[which].name, what, it->places[at] ? place == it->places[at] : place && !((uintptr_t)place % 8));
    }
    if (calls[which].has_report) expect(calls[which].name, what, it->report ? passed.report == it->report : passed.report != NULL);
}

static void try_right(size_t which) {
    struct passed it = given(which);
    expect_passed("all as given", which, &it);
    it.features = which + 1 < CALLS ? 0 : 6;
    expect_passed("other features", which, &it);
    for (int at = 0; at < calls[which].arrays; at++) {
        it = given(which);
        it.places[at] = NULL, it.counts[at] = 0;
        expect_passed("a null pointer for an array of no items", which, &it);
        it.places[at] = lists[at];
        if (at || !calls[which].has_list) expect_passed("an array of no items", which, &it);
    }
    it = given(which);
    it.report = NULL;
    expect_passed("no report", which, &it);
}

/* Makes a wrong call, of which nothing may be passed on. */
static void expect_kept(const char *what, size_t which, const struct passed *it) {
    passed.name = NULL;
    expect(calls[which].name, what, calls[which].made(it) == (which + 1 < CALLS ? RUTHVELKA_BAD_CALL : 0) && !passed.name);
}

static void try_wrong(size_t which) {
    for (int at = 0; at < calls[which].arrays; at++) {
        struct passed it = given(which);
        it.places[at] = NULL;
        expect_kept("a null pointer for an array of some items", which, &it);
        it.places[at] = lists[at], it.counts[at] = (size_t)PTRDIFF_MAX + 1;
        expect_kept("an array of too many items", which, &it);
    }
}

static void try_features(size_t which) {
    for (int bit = 0; bit < 64; bit++) {
        struct passed it = given(which);
        it.features = UINT64_C(1) << bit;
        if (known & it.features) expect_passed("a known feature", which, &it);
        else expect_kept("an unknown feature", which, &it);
    }
}

/* Whether the modules that were passed on are those of this list, with something in the place of a null pointer. */
static int are_passed(const struct ruthvelka_bytes *list) {
    int all = 1;
    for (int it = 0; it < MODULES; it++)
        all &= passed_modules[it].length == list[it].length
            && (list[it].bytes ? passed_modules[it].bytes == list[it].bytes : passed_modules[it].bytes != NULL);
    return all;
}

/* A list with a null pointer is passed on as a copy, for which memory is taken, and given back. */
static void try_null_in_list(size_t which, int at) {
    struct ruthvelka_bytes list[MODULES];
    struct passed it = given(which);
    memcpy(list, lists[0], sizeof list);
    list[at] = (struct ruthvelka_bytes){NULL, 0};
    it.places[0] = list;
    passed.name = NULL;
    expect(calls[which].name, "a null pointer in a list",
        calls[which].made(&it) == calls[which].result && passed.name && passed.places[0] != list && passed.counts[0] == MODULES);
    expect(calls[which].name, "the modules of a copied list", are_passed(list));
    expect(calls[which].name, "the memory of a copied list", !blocks);
    passed.name = NULL, is_memory_refused = 1;
    expect(calls[which].name, "no memory for a copied list", calls[which].made(&it) == RUTHVELKA_NO_MEMORY && !passed.name);
    is_memory_refused = 0;
}

static void try_list(size_t which) {
    const struct passed it = given(which);
    for (int at = 0; at < MODULES; at++) try_null_in_list(which, at);
    is_memory_refused = 1;
    expect_passed("no memory, where none is wanted", which, &it);
    expect(calls[which].name, "the modules of a list", are_passed(lists[0]));
    is_memory_refused = 0;
}

static void try_feature(void) {
    struct passed it = {"feature", 0, {"GC"}, {2}, NULL};
    expect("feature", "all as given", feature(&it) == UINT64_C(1) << 35 && passed.places[0] == it.places[0] && passed.counts[0] == 2);
    passed.name = NULL, it.counts[0] = (size_t)PTRDIFF_MAX + 1;
    expect("feature", "a name past all memory", !feature(&it) && !passed.name);
    it.places[0] = NULL, it.counts[0] = 0;
    expect("feature", "a null pointer", !feature(&it) && !passed.name);
}

int main(void) {
    ruthvelka_set_allocator(allocate, realloc, release);
    for (size_t which = 0; which < CALLS; which++) {
        try_right(which);
        try_wrong(which);
        if (which + 1 < CALLS) try_features(which);
        if (calls[which].has_list) try_list(which);
    }
    try_feature();
    expect("version", "the result", ruthvelka_version() == 2000);
    printf("%ld wrong arguments\n", wrong);
    return wrong != 0;
}
