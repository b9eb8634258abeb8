/* The calls of ruthvelka.h, over the proved ones, which want no null pointer, no length past PTRDIFF_MAX bytes and no unknown feature: a null pointer
   whose count is 0 becomes the place of a dummy, and all else is a wrong call. */
#include "internal.h"

/* The proved calls (crates/ruthvelka_c). */
uint32_t ruthvelka_proved_version(void);
uint64_t ruthvelka_proved_feature(const uint8_t *name, size_t length);
uint64_t ruthvelka_proved_feature_name(uint64_t feature, uint8_t *name, size_t name_room);
uint32_t ruthvelka_proved_validate(const uint8_t *bytes, size_t length, uint64_t features, uint8_t *message, size_t message_room,
    struct ruthvelka_report *report);
uint32_t ruthvelka_proved_validate_with_ids(const uint8_t *bytes, size_t length, uint64_t features, uint8_t *message, size_t message_room,
    struct ruthvelka_report *report, uint32_t *type_ids, size_t type_room, uint32_t *function_ids, size_t function_room);
uint32_t ruthvelka_proved_validate_with_externs(const uint8_t *bytes, size_t length, uint64_t features, uint8_t *message, size_t message_room,
    struct ruthvelka_report *report, struct ruthvelka_extern *imports, size_t import_room, struct ruthvelka_extern *exports, size_t export_room,
    uint8_t *names, size_t name_room);
uint32_t ruthvelka_proved_validate_list(const struct ruthvelka_bytes *modules, size_t module_count, uint64_t features,
    struct ruthvelka_report *reports, size_t report_room, uint32_t *type_ids, size_t type_room, uint32_t *function_ids, size_t function_room);
uint32_t ruthvelka_proved_validate_list_with_queries(const struct ruthvelka_bytes *modules, size_t module_count, uint64_t features,
    struct ruthvelka_report *reports, size_t report_room, struct ruthvelka_query *queries, size_t query_count);

/* What stands where a caller gave a null pointer with a count of 0. Nothing is ever read or written there. */
static union {
    uint8_t bytes[1];
    uint32_t numbers[1];
    struct ruthvelka_extern externs[1];
    struct ruthvelka_bytes modules[1];
    struct ruthvelka_report reports[1];
    struct ruthvelka_query queries[1];
} none;

static uint32_t bad_call(struct ruthvelka_report *report) {
    if (report) *report = (struct ruthvelka_report){.verdict = RUTHVELKA_BAD_CALL, .function = RUTHVELKA_NO_FUNCTION};
    return RUTHVELKA_BAD_CALL;
}

uint32_t ruthvelka_version(void) {
    return ruthvelka_proved_version();
}

uint64_t ruthvelka_feature(const char *name, size_t length) {
    return name && length <= (size_t)PTRDIFF_MAX ? ruthvelka_proved_feature((const uint8_t *)name, length) : 0;
}

size_t ruthvelka_feature_name(uint64_t feature, char *name, size_t room) {
    if (!is_array(name, room, 1)) return 0;
    return (size_t)ruthvelka_proved_feature_name(feature, name ? (uint8_t *)name : none.bytes, room);
}

uint32_t ruthvelka_validate(const uint8_t *bytes, size_t length, uint64_t features, char *message, size_t message_room,
    struct ruthvelka_report *report) {
    struct ruthvelka_report unread;
    if (!are_known(features) || !is_array(bytes, length, 1) || !is_array(message, message_room, 1)) return bad_call(report);
    return ruthvelka_proved_validate(bytes ? bytes : none.bytes, length, features, message ? (uint8_t *)message : none.bytes, message_room,
        report ? report : &unread);
}

uint32_t ruthvelka_validate_with_ids(const uint8_t *bytes, size_t length, uint64_t features, char *message, size_t message_room,
    struct ruthvelka_report *report, uint32_t *type_ids, size_t type_room, uint32_t *function_ids, size_t function_room) {
    struct ruthvelka_report unread;
    if (!are_known(features) || !is_array(bytes, length, 1) || !is_array(message, message_room, 1)) return bad_call(report);
    if (!is_array(type_ids, type_room, sizeof *type_ids) || !is_array(function_ids, function_room, sizeof *function_ids)) return bad_call(report);
    return ruthvelka_proved_validate_with_ids(bytes ? bytes : none.bytes, length, features, message ? (uint8_t *)message : none.bytes,
        message_room, report ? report : &unread, type_ids ? type_ids : none.numbers, type_room, function_ids ? function_ids : none.numbers,
        function_room);
}

uint32_t ruthvelka_validate_with_externs(const uint8_t *bytes, size_t length, uint64_t features, char *message, size_t message_room,
    struct ruthvelka_report *report, struct ruthvelka_extern *imports, size_t import_room, struct ruthvelka_extern *exports, size_t export_room,
    char *names, size_t name_room) {
    struct ruthvelka_report unread;
    if (!are_known(features) || !is_array(bytes, length, 1) || !is_array(message, message_room, 1)) return bad_call(report);
    if (!is_array(imports, import_room, sizeof *imports) || !is_array(exports, export_room, sizeof *exports)) return bad_call(report);
    if (!is_array(names, name_room, 1)) return bad_call(report);
    return ruthvelka_proved_validate_with_externs(bytes ? bytes : none.bytes, length, features, message ? (uint8_t *)message : none.bytes,
        message_room, report ? report : &unread, imports ? imports : none.externs, import_room, exports ? exports : none.externs, export_room,
        names ? (uint8_t *)names : none.bytes, name_room);
}

/* A list of modules that the proved calls may be given. */
struct list {
    const struct ruthvelka_bytes *modules;
    struct ruthvelka_bytes *copy; /* where a module has a null pointer, else null */
};

/* Whether these are modules: each may have a null pointer with a length of 0. */
static bool are_modules(const struct ruthvelka_bytes *modules, size_t count) {
    if (!is_array(modules, count, sizeof *modules)) return false;
    for (size_t i = 0; i < count; i++)
        if (!is_array(modules[i].bytes, modules[i].length, 1)) return false;
    return true;
}

/* Takes the list as it is, or where a pointer is null a copy, in which a dummy stands there. It says whether there was memory for that. */
static bool take_list(struct list *list, const struct ruthvelka_bytes *modules, size_t count) {
    size_t nulls = 0;
    for (size_t i = 0; i < count; i++) nulls += !modules[i].bytes;
    *list = (struct list){count ? modules : none.modules, NULL};
    if (!nulls) return true;
    const struct rattle_given given = rattle_alloc(count * sizeof *modules, sizeof(void *));
    if (!given.is_given) return false;
    list->modules = list->copy = (struct ruthvelka_bytes *)(void *)given.place;
    for (size_t i = 0; i < count; i++)
        list->copy[i] = modules[i].bytes ? modules[i] : (struct ruthvelka_bytes){none.bytes, 0};
    return true;
}

static uint32_t give_back(const struct list *list, uint32_t result) {
    if (list->copy) rattle_dealloc((uint8_t *)list->copy);
    return result;
}

uint32_t ruthvelka_validate_list(const struct ruthvelka_bytes *modules, size_t module_count, uint64_t features, struct ruthvelka_report *reports,
    size_t report_room, uint32_t *type_ids, size_t type_room, uint32_t *function_ids, size_t function_room) {
    struct list list;
    if (!are_known(features) || !are_modules(modules, module_count) || !is_array(reports, report_room, sizeof *reports)) return RUTHVELKA_BAD_CALL;
    if (!is_array(type_ids, type_room, sizeof *type_ids) || !is_array(function_ids, function_room, sizeof *function_ids)) return RUTHVELKA_BAD_CALL;
    if (!take_list(&list, modules, module_count)) return RUTHVELKA_NO_MEMORY;
    return give_back(&list, ruthvelka_proved_validate_list(list.modules, module_count, features, reports ? reports : none.reports, report_room,
        type_ids ? type_ids : none.numbers, type_room, function_ids ? function_ids : none.numbers, function_room));
}

uint32_t ruthvelka_validate_list_with_queries(const struct ruthvelka_bytes *modules, size_t module_count, uint64_t features,
    struct ruthvelka_report *reports, size_t report_room, struct ruthvelka_query *queries, size_t query_count) {
    struct list list;
    if (!are_known(features) || !are_modules(modules, module_count) || !is_array(reports, report_room, sizeof *reports)) return RUTHVELKA_BAD_CALL;
    if (!is_array(queries, query_count, sizeof *queries)) return RUTHVELKA_BAD_CALL;
    if (!take_list(&list, modules, module_count)) return RUTHVELKA_NO_MEMORY;
    return give_back(&list, ruthvelka_proved_validate_list_with_queries(list.modules, module_count, features, reports ? reports : none.reports,
        report_room, queries ? queries : none.queries, query_count));
}
