/* The calls of ruthvelka.h on handles, over the proved ones, which want a handle that they wrote or that is null, no other null pointer, no length
   past PTRDIFF_MAX bytes and no unknown feature. Each runs with the allocator of its handle. */
#include "internal.h"

#include <string.h>

/* How many values a function takes and gives, as the proved part has it. */
struct ruthvelka_proved_counts {
    uint64_t params, results;
};

/* The proved calls (crates/ruthvelka_c, most of them in handles.rt and types.rt). A handle is the place of a pointer. */
uint32_t ruthvelka_proved_validate(const uint8_t *bytes, size_t length, uint64_t features, uint8_t *message, size_t message_room,
    struct ruthvelka_report *report);
uint32_t ruthvelka_proved_validator_new(uint64_t features, size_t number, void **validator);
uint32_t ruthvelka_proved_validator_validate(void **validator, const uint8_t *bytes, size_t length, uint8_t *message, size_t message_room,
    struct ruthvelka_report *report, void **types);
uint32_t ruthvelka_proved_validator_reset(void **validator);
uint32_t ruthvelka_proved_types_retain(void **types, void **copy);
uint32_t ruthvelka_proved_types_ids(void **types, struct ruthvelka_report *report, uint32_t *type_ids, size_t type_room, uint32_t *function_ids,
    size_t function_room);
uint32_t ruthvelka_proved_types_is_subtype(void **types, uint32_t first, uint32_t second);
uint32_t ruthvelka_proved_types_matches(void **types, const struct ruthvelka_value_type *first, const struct ruthvelka_value_type *second);
uint32_t ruthvelka_proved_types_may_be_given(void **exporter, uint32_t exported, void **importer, uint32_t imported);
uint32_t ruthvelka_proved_types_externs(void **types, struct ruthvelka_report *report, struct ruthvelka_extern_type *imports, size_t import_room,
    struct ruthvelka_extern_type *exports, size_t export_room, uint8_t *names, size_t name_room);
uint32_t ruthvelka_proved_types_signature(void **types, uint32_t id, struct ruthvelka_proved_counts *counts, struct ruthvelka_value_type *params,
    size_t param_room, struct ruthvelka_value_type *results, size_t result_room);
void ruthvelka_proved_handle_free(void **handle);

/* What stands where a caller gave a null pointer with a count of 0. Nothing is ever read or written there. */
static union {
    uint8_t bytes[1];
    uint32_t numbers[1];
    struct ruthvelka_extern_type externs[1];
    struct ruthvelka_value_type values[1];
} none;

/* The words of a handle: the proved one; its allocator, which a handle that was moved takes along; and of a validator the types of the last module
   that it accepted, as a proved handle too. */
enum { PLACE, ALLOCATOR, LAST };

static const struct ruthvelka_allocator *allocator_of(void *const *words) {
    return words[ALLOCATOR];
}

/* Whether a handle may be filled. */
static bool is_nothing(void *const *words) {
    return !words[PLACE];
}

static bool is_allocator(const struct ruthvelka_allocator *it) {
    return it->size >= sizeof *it && it->allocate && it->resize && it->release;
}

/* Whether an outcome may be written: it is null, or has room for a status. */
static bool is_outcome(const struct ruthvelka_outcome *it) {
    return !it || it->size >= offsetof(struct ruthvelka_outcome, offset);
}

/* Writes what a report tells, with this status, as far as the outcome's size goes; and gives the status. */
static uint32_t tell(struct ruthvelka_outcome *to, uint32_t status, const struct ruthvelka_report *report) {
    if (!to) return status;
    const struct ruthvelka_outcome told = {.size = to->size, .status = status, .function = report->function, .offset = report->offset,
        .missing_features = report->missing_features, .message_length = report->message_length, .imports = report->imports,
        .exports = report->exports, .types = report->types, .functions = report->functions, .tables = report->tables,
        .memories = report->memories, .globals = report->globals, .tags = report->tags, .names_length = report->names_length};
    memcpy(to, &told, to->size < sizeof told ? (size_t)to->size : sizeof told);
    return status;
}

/* The same of a call that told nothing of a module. */
static uint32_t tell_nothing(struct ruthvelka_outcome *to, uint32_t status) {
    const struct ruthvelka_report nothing = {.function = RUTHVELKA_NO_FUNCTION};
    return is_outcome(to) ? tell(to, status, &nothing) : status;
}

/* The three above for the other files of c/. */
bool ruthvelka_may_be_told(const struct ruthvelka_outcome *it) {
    return is_outcome(it);
}

uint32_t ruthvelka_tell(struct ruthvelka_outcome *to, uint32_t status, const struct ruthvelka_report *report) {
    return tell(to, status, report);
}

uint32_t ruthvelka_tell_nothing(struct ruthvelka_outcome *to, uint32_t status) {
    return tell_nothing(to, status);
}

/* Lets go what a handle holds, by the allocator that it was taken from, and leaves nothing of it. */
static void let_go(void **words) {
    if (!words || !words[PLACE]) return;
    const struct ruthvelka_allocator *const before = ruthvelka_lend_allocator(allocator_of(words));
    ruthvelka_proved_handle_free(&words[PLACE]);
    ruthvelka_proved_handle_free(&words[LAST]);
    ruthvelka_lend_allocator(before);
    words[ALLOCATOR] = NULL;
}

uint32_t ruthvelka_check(const uint8_t *bytes, size_t length, uint64_t features, char *message, size_t message_room,
    struct ruthvelka_outcome *outcome) {
    struct ruthvelka_report report;
    if (!are_known(features) || !is_outcome(outcome) || !is_array(bytes, length, 1) || !is_array(message, message_room, 1))
        return tell_nothing(outcome, RUTHVELKA_STATUS_WRONG);
    switch (ruthvelka_proved_validate(bytes ? bytes : none.bytes, length, features, message ? (uint8_t *)message : none.bytes, message_room,
        &report)) {
    case RUTHVELKA_VALID: return tell(outcome, RUTHVELKA_STATUS_VALID, &report);
    case RUTHVELKA_REFUSED: return tell(outcome, RUTHVELKA_STATUS_REFUSED, &report);
    default: return tell(outcome, RUTHVELKA_STATUS_NO_MEMORY, &report);
    }
}

uint32_t ruthvelka_validator_new(struct ruthvelka_validator *validator, uint64_t features, const struct ruthvelka_allocator *allocator) {
    static uint64_t number;
    if (!validator || !is_nothing(validator->words) || !are_known(features)) return RUTHVELKA_STATUS_WRONG;
    if (allocator && !is_allocator(allocator)) return RUTHVELKA_STATUS_WRONG;
    const struct ruthvelka_allocator *const its = allocator ? allocator : &ruthvelka_standard_allocator;
    const struct ruthvelka_allocator *const before = ruthvelka_lend_allocator(its);
    const uint32_t status = ruthvelka_proved_validator_new(features, (size_t)__atomic_add_fetch(&number, 1, __ATOMIC_RELAXED),
        &validator->words[PLACE]);
    ruthvelka_lend_allocator(before);
    if (status == RUTHVELKA_STATUS_DONE) validator->words[ALLOCATOR] = (void *)(uintptr_t)its;
    return status;
}

/* Keeps the types of a module that was just accepted, as those of the last one and behind the caller's handle, if there is one; and gives the status
   of that. Where there is no memory for it they are let go, and the last ones stay. */
static uint32_t keep(void **validator, void **accepted, struct ruthvelka_types *types) {
    if (types && ruthvelka_proved_types_retain(accepted, &types->words[PLACE]) != RUTHVELKA_STATUS_DONE) {
        ruthvelka_proved_handle_free(accepted);
        return RUTHVELKA_STATUS_NO_MEMORY;
    }
    if (types) types->words[ALLOCATOR] = validator[ALLOCATOR];
    ruthvelka_proved_handle_free(&validator[LAST]);
    validator[LAST] = *accepted;
    return RUTHVELKA_STATUS_VALID;
}

uint32_t ruthvelka_validator_validate(struct ruthvelka_validator *validator, const uint8_t *bytes, size_t length, char *message,
    size_t message_room, struct ruthvelka_outcome *outcome, struct ruthvelka_types *types) {
    struct ruthvelka_report report;
    void *accepted = NULL;
    if (!validator || (types && !is_nothing(types->words)) || !is_outcome(outcome) || !is_array(bytes, length, 1)
        || !is_array(message, message_room, 1))
        return tell_nothing(outcome, RUTHVELKA_STATUS_WRONG);
    const struct ruthvelka_allocator *const before = ruthvelka_lend_allocator(allocator_of(validator->words));
    const uint32_t status = ruthvelka_proved_validator_validate(&validator->words[PLACE], bytes ? bytes : none.bytes, length,
        message ? (uint8_t *)message : none.bytes, message_room, &report, &accepted);
    const uint32_t kept = status == RUTHVELKA_STATUS_VALID ? keep(validator->words, &accepted, types) : status;
    ruthvelka_lend_allocator(before);
    return kept == status ? tell(outcome, status, &report) : tell_nothing(outcome, kept);
}

/* Makes a handle that holds nothing hold the types behind another one, which has this allocator. */
static uint32_t share(void **types, void *allocator, struct ruthvelka_types *copy) {
    const struct ruthvelka_allocator *const before = ruthvelka_lend_allocator(allocator);
    const uint32_t status = ruthvelka_proved_types_retain(types, &copy->words[PLACE]);
    ruthvelka_lend_allocator(before);
    if (status == RUTHVELKA_STATUS_DONE) copy->words[ALLOCATOR] = allocator;
    return status;
}

uint32_t ruthvelka_validator_types(struct ruthvelka_validator *validator, struct ruthvelka_types *types) {
    if (!validator || !types || !is_nothing(types->words)) return RUTHVELKA_STATUS_WRONG;
    return share(&validator->words[LAST], validator->words[ALLOCATOR], types);
}

uint32_t ruthvelka_validator_reset(struct ruthvelka_validator *validator) {
    if (!validator) return RUTHVELKA_STATUS_WRONG;
    const struct ruthvelka_allocator *const before = ruthvelka_lend_allocator(allocator_of(validator->words));
    const uint32_t status = ruthvelka_proved_validator_reset(&validator->words[PLACE]);
    ruthvelka_lend_allocator(before);
    return status;
}

void ruthvelka_validator_free(struct ruthvelka_validator *validator) {
    if (validator) let_go(validator->words);
}

uint32_t ruthvelka_types_retain(struct ruthvelka_types *types, struct ruthvelka_types *copy) {
    if (!types || !copy || copy == types || !is_nothing(copy->words)) return RUTHVELKA_STATUS_WRONG;
    return share(&types->words[PLACE], types->words[ALLOCATOR], copy);
}

void ruthvelka_types_release(struct ruthvelka_types *types) {
    if (types) let_go(types->words);
}

uint32_t ruthvelka_types_ids(struct ruthvelka_types *types, struct ruthvelka_outcome *outcome, uint32_t *type_ids, size_t type_room,
    uint32_t *function_ids, size_t function_room) {
    struct ruthvelka_report report;
    if (!types || !is_outcome(outcome) || !is_array(type_ids, type_room, sizeof *type_ids)
        || !is_array(function_ids, function_room, sizeof *function_ids))
        return tell_nothing(outcome, RUTHVELKA_STATUS_WRONG);
    const uint32_t status = ruthvelka_proved_types_ids(&types->words[PLACE], &report, type_ids ? type_ids : none.numbers, type_room,
        function_ids ? function_ids : none.numbers, function_room);
    return status == RUTHVELKA_STATUS_DONE ? tell(outcome, status, &report) : tell_nothing(outcome, status);
}

uint32_t ruthvelka_types_is_subtype(struct ruthvelka_types *types, uint32_t first, uint32_t second) {
    return types && ruthvelka_proved_types_is_subtype(&types->words[PLACE], first, second) == RUTHVELKA_YES;
}

static bool is_value_type(const struct ruthvelka_value_type *it) {
    return it && it->size >= offsetof(struct ruthvelka_value_type, id) + sizeof it->id;
}

/* A value type as far as its size goes, and 0 behind that. */
static struct ruthvelka_value_type whole(const struct ruthvelka_value_type *it) {
    struct ruthvelka_value_type whole = {.size = 0};
    memcpy(&whole, it, it->size < sizeof whole ? (size_t)it->size : sizeof whole);
    return whole;
}

uint32_t ruthvelka_types_matches(struct ruthvelka_types *types, const struct ruthvelka_value_type *first,
    const struct ruthvelka_value_type *second) {
    if (!types || !is_value_type(first) || !is_value_type(second)) return RUTHVELKA_NO;
    const struct ruthvelka_value_type a = whole(first), b = whole(second);
    return ruthvelka_proved_types_matches(&types->words[PLACE], &a, &b) == RUTHVELKA_YES;
}

uint32_t ruthvelka_types_entity_may_be_given(struct ruthvelka_types *exporter, uint32_t exported, struct ruthvelka_types *importer,
    uint32_t imported) {
    return exporter && importer && exporter != importer
        && ruthvelka_proved_types_may_be_given(&exporter->words[PLACE], exported, &importer->words[PLACE], imported) == RUTHVELKA_YES;
}

/* Whether a call may be given these arrays of types, whose first item has the size of each: that of the items that are written. */
static bool are_externs(const struct ruthvelka_extern_type *items, size_t count) {
    return is_array(items, count, sizeof *items) && (!count || items->size == sizeof *items);
}

static bool are_values(const struct ruthvelka_value_type *items, size_t count) {
    return is_array(items, count, sizeof *items) && (!count || items->size == sizeof *items);
}

uint32_t ruthvelka_types_externs(struct ruthvelka_types *types, struct ruthvelka_outcome *outcome, struct ruthvelka_extern_type *imports,
    size_t import_room, struct ruthvelka_extern_type *exports, size_t export_room, char *names, size_t name_room) {
    struct ruthvelka_report report;
    if (!types || !is_outcome(outcome) || !are_externs(imports, import_room) || !are_externs(exports, export_room) || !is_array(names, name_room, 1))
        return tell_nothing(outcome, RUTHVELKA_STATUS_WRONG);
    const struct ruthvelka_allocator *const before = ruthvelka_lend_allocator(allocator_of(types->words));
    const uint32_t status = ruthvelka_proved_types_externs(&types->words[PLACE], &report, imports ? imports : none.externs, import_room,
        exports ? exports : none.externs, export_room, names ? (uint8_t *)names : none.bytes, name_room);
    ruthvelka_lend_allocator(before);
    return status == RUTHVELKA_STATUS_DONE ? tell(outcome, status, &report) : tell_nothing(outcome, status);
}

/* Whether a signature may be written: it is null, or has room for both counts. */
static bool is_signature(const struct ruthvelka_signature *it) {
    return !it || it->size >= sizeof *it;
}

uint32_t ruthvelka_types_signature(struct ruthvelka_types *types, uint32_t id, struct ruthvelka_signature *signature,
    struct ruthvelka_value_type *params, size_t param_room, struct ruthvelka_value_type *results, size_t result_room) {
    struct ruthvelka_proved_counts counts = {0, 0};
    if (!types || !is_signature(signature) || !are_values(params, param_room) || !are_values(results, result_room)) return RUTHVELKA_STATUS_WRONG;
    const uint32_t status = ruthvelka_proved_types_signature(&types->words[PLACE], id, &counts, params ? params : none.values, param_room,
        results ? results : none.values, result_room);
    if (status != RUTHVELKA_STATUS_DONE || !signature) return status;
    signature->params = counts.params, signature->results = counts.results;
    return status;
}
