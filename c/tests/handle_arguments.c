/* Which arguments c/handles.c passes on. This is linked with functions in place of the proved ones, which keep what they were given and take memory:
   each argument comes as it was given, but for null pointers, in whose place something stands; memory comes from the allocator of the handle that the
   call is on; no wrong call comes through; and all that is reported goes back. */
#include "handles.h"

#include "../internal.h"

/* What the last proved call was given. */
#define MOST 4
static struct passed {
    const char *name;
    const void *handles[2];
    uint64_t numbers[2];
    const void *places[MOST];
    size_t counts[MOST];
} passed;
/* What the proved calls answer, and report; and what one answers that makes a handle hold types too. */
static uint32_t status, retained = DONE;
static const struct ruthvelka_report reported = {.offset = 1, .missing_features = 2, .message_length = 3, .imports = 4, .exports = 5,
    .names_length = 6, .verdict = 7, .function = 8, .types = 9, .functions = 10, .tables = 11, .memories = 12, .globals = 13, .tags = 14};
static const struct ruthvelka_outcome right = {.size = sizeof right, .function = 8, .offset = 1, .missing_features = 2, .message_length = 3,
    .imports = 4, .exports = 5, .types = 9, .functions = 10, .tables = 11, .memories = 12, .globals = 13, .tags = 14, .names_length = 6};

/* What is behind a handle that the functions below filled. */
static void *fill(void **handle) {
    return *handle = rattle_alloc(8, 8).place;
}

uint64_t ruthvelka_proved_features(void) {
    return STANDARD;
}

uint32_t ruthvelka_proved_validate(const uint8_t *bytes, size_t length, uint64_t features, uint8_t *message, size_t message_room,
    struct ruthvelka_report *report) {
    passed = (struct passed){"validate", {NULL}, {features}, {bytes, message}, {length, message_room}};
    *report = reported;
    return status;
}

uint32_t ruthvelka_proved_validator_new(uint64_t features, size_t number, void **validator) {
    passed = (struct passed){"new", {validator}, {features, number}, {NULL}, {0}};
    fill(validator);
    return DONE;
}

uint32_t ruthvelka_proved_validator_validate(void **validator, const uint8_t *bytes, size_t length, uint8_t *message, size_t message_room,
    struct ruthvelka_report *report, void **types) {
    passed = (struct passed){"validate", {validator, types}, {0}, {bytes, message}, {length, message_room}};
    *report = reported;
    if (status == VALID) fill(types);
    return status;
}

/* It resizes what is behind the handle, to see by which allocator. */
uint32_t ruthvelka_proved_validator_reset(void **validator) {
    passed = (struct passed){"reset", {validator}, {0}, {NULL}, {0}};
    *validator = rattle_realloc(*validator, 8, 16, 8).place;
    return FAILED;
}

/* It keeps apart from the others what it was given, since it also follows another call. */
static struct passed retain;
uint32_t ruthvelka_proved_types_retain(void **types, void **copy) {
    retain = (struct passed){"retain", {types, copy}, {0}, {*types}, {0}};
    if (retained == DONE) fill(copy);
    return retained;
}

uint32_t ruthvelka_proved_types_ids(void **types, struct ruthvelka_report *report, uint32_t *type_ids, size_t type_room, uint32_t *function_ids,
    size_t function_room) {
    passed = (struct passed){"ids", {types}, {0}, {type_ids, function_ids}, {type_room, function_room}};
    if (status == DONE) *report = reported;
    return status;
}

uint32_t ruthvelka_proved_types_is_subtype(void **types, uint32_t first, uint32_t second) {
    passed = (struct passed){"is_subtype", {types}, {first, second}, {NULL}, {0}};
    return status;
}

static struct ruthvelka_value_type asked[2];
uint32_t ruthvelka_proved_types_matches(void **types, const struct ruthvelka_value_type *first, const struct ruthvelka_value_type *second) {
    passed = (struct passed){"matches", {types}, {0}, {NULL}, {0}};
    asked[0] = *first, asked[1] = *second;
    return status;
}

/* It takes memory, to see from which allocator. */
uint32_t ruthvelka_proved_types_externs(void **types, struct ruthvelka_report *report, struct ruthvelka_extern_type *imports, size_t import_room,
    struct ruthvelka_extern_type *exports, size_t export_room, uint8_t *names, size_t name_room) {
    passed = (struct passed){"externs", {types}, {0}, {imports, exports, names}, {import_room, export_room, name_room}};
    rattle_dealloc(rattle_alloc(8, 8).place);
    if (status == DONE) *report = reported;
    return status;
}

struct ruthvelka_proved_counts {
    uint64_t params, results;
};
uint32_t ruthvelka_proved_types_signature(void **types, uint32_t id, struct ruthvelka_proved_counts *counts, struct ruthvelka_value_type *params,
    size_t param_room, struct ruthvelka_value_type *results, size_t result_room) {
    passed = (struct passed){"signature", {types}, {id}, {params, results}, {param_room, result_room}};
    if (status == DONE) *counts = (struct ruthvelka_proved_counts){21, 22};
    return status;
}

uint32_t ruthvelka_proved_types_may_be_given(void **exporter, uint32_t exported, void **importer, uint32_t imported) {
    passed = (struct passed){"may_be_given", {exporter, importer}, {exported, imported}, {NULL}, {0}};
    return status;
}

/* The first handle that was freed since this was null. */
static void *freed;
void ruthvelka_proved_handle_free(void **handle) {
    if (!freed) freed = handle;
    if (*handle) rattle_dealloc(*handle);
    *handle = NULL;
}

static struct arena arena = {0, 0, -1};
static const struct ruthvelka_allocator over = OVER(&arena);
static struct ruthvelka_validator validator = NOTHING;
static struct ruthvelka_types types = NOTHING, others = NOTHING;
static const uint8_t bytes[4];
static char message[4];
static uint32_t type_ids[4], function_ids[4];
static struct ruthvelka_extern_type imports[4], exports[4];
static struct ruthvelka_value_type params[4], results[4];

/* Whether the last call was passed on, to what has this name, with this handle first and these counts. */
static void expect_passed(const char *name, const void *handle, size_t first, size_t second) {
    expect(name, passed.name && !strcmp(passed.name, name) && passed.handles[0] == handle && passed.counts[0] == first && passed.counts[1] == second);
}

/* Makes a call that must not be passed on, and so is wrong, and says so in its outcome. */
#define EXPECT_KEPT(call) \
    (passed.name = NULL, outcome.status = VALID, outcome.types = 5, \
        expect(#call, (call) == WRONG && !passed.name && outcome.status == WRONG && !outcome.types && outcome.function == NOWHERE))

#define TOO_MANY(size) ((size_t)PTRDIFF_MAX / (size) + 1)
static void try_wrong(void) {
    struct ruthvelka_outcome outcome = {.size = sizeof outcome};
    struct ruthvelka_types empty = NOTHING;
    EXPECT_KEPT(ruthvelka_check(NULL, 1, STANDARD, message, 4, &outcome));
    EXPECT_KEPT(ruthvelka_check(bytes, TOO_MANY(1), STANDARD, message, 4, &outcome));
    EXPECT_KEPT(ruthvelka_check(bytes, 4, STANDARD, NULL, 1, &outcome));
    EXPECT_KEPT(ruthvelka_check(bytes, 4, STANDARD, message, TOO_MANY(1), &outcome));
    EXPECT_KEPT(ruthvelka_check(bytes, 4, ~STANDARD, message, 4, &outcome));
    EXPECT_KEPT(ruthvelka_validator_validate(NULL, bytes, 4, message, 4, &outcome, &empty));
    EXPECT_KEPT(ruthvelka_validator_validate(&validator, NULL, 1, message, 4, &outcome, &empty));
    EXPECT_KEPT(ruthvelka_validator_validate(&validator, bytes, TOO_MANY(1), message, 4, &outcome, &empty));
    EXPECT_KEPT(ruthvelka_validator_validate(&validator, bytes, 4, NULL, 1, &outcome, &empty));
    EXPECT_KEPT(ruthvelka_validator_validate(&validator, bytes, 4, message, TOO_MANY(1), &outcome, &empty));
    EXPECT_KEPT(ruthvelka_validator_validate(&validator, bytes, 4, message, 4, &outcome, &types));
    EXPECT_KEPT(ruthvelka_types_ids(NULL, &outcome, type_ids, 4, function_ids, 4));
    EXPECT_KEPT(ruthvelka_types_ids(&types, &outcome, NULL, 1, function_ids, 4));
    EXPECT_KEPT(ruthvelka_types_ids(&types, &outcome, type_ids, TOO_MANY(4), function_ids, 4));
    EXPECT_KEPT(ruthvelka_types_ids(&types, &outcome, type_ids, 4, NULL, 1));
    EXPECT_KEPT(ruthvelka_types_ids(&types, &outcome, type_ids, 4, function_ids, TOO_MANY(4)));
    EXPECT_KEPT(ruthvelka_types_externs(NULL, &outcome, imports, 4, exports, 4, message, 4));
    EXPECT_KEPT(ruthvelka_types_externs(&types, &outcome, NULL, 1, exports, 4, message, 4));
    EXPECT_KEPT(ruthvelka_types_externs(&types, &outcome, imports, TOO_MANY(96), exports, 4, message, 4));
    EXPECT_KEPT(ruthvelka_types_externs(&types, &outcome, imports, 4, NULL, 1, message, 4));
    EXPECT_KEPT(ruthvelka_types_externs(&types, &outcome, imports, 4, exports, TOO_MANY(96), message, 4));
    EXPECT_KEPT(ruthvelka_types_externs(&types, &outcome, imports, 4, exports, 4, NULL, 1));
    EXPECT_KEPT(ruthvelka_types_externs(&types, &outcome, imports, 4, exports, 4, message, TOO_MANY(1)));
    struct ruthvelka_outcome narrow = {.size = offsetof(struct ruthvelka_outcome, offset) - 1};
    passed.name = NULL;
    expect("an outcome without room for its status", ruthvelka_types_ids(&types, &narrow, type_ids, 4, function_ids, 4) == WRONG
        && ruthvelka_types_externs(&types, &narrow, imports, 4, exports, 4, message, 4) == WRONG && !passed.name && !narrow.status);
    struct ruthvelka_signature signature = {sizeof signature, 7, 7};
    passed.name = retain.name = NULL;
    expect("signatures", ruthvelka_types_signature(NULL, 0, &signature, params, 4, results, 4) == WRONG
        && ruthvelka_types_signature(&types, 0, &signature, NULL, 1, results, 4) == WRONG
        && ruthvelka_types_signature(&types, 0, &signature, params, TOO_MANY(24), results, 4) == WRONG
        && ruthvelka_types_signature(&types, 0, &signature, params, 4, NULL, 1) == WRONG
        && ruthvelka_types_signature(&types, 0, &signature, params, 4, results, TOO_MANY(24)) == WRONG && !passed.name && signature.params == 7);
    expect("a copy in its own place", ruthvelka_types_retain(&empty, &empty) == WRONG && !retain.name);
    expect("a full copy", ruthvelka_types_retain(&types, &others) == WRONG && ruthvelka_types_retain(&types, &types) == WRONG && !retain.name);
    expect("the last types", ruthvelka_validator_types(NULL, &empty) == WRONG && ruthvelka_validator_types(&validator, NULL) == WRONG
        && ruthvelka_validator_types(&validator, &types) == WRONG && !retain.name);
    status = RUTHVELKA_YES;
    const struct ruthvelka_value_type value = {sizeof value, RUTHVELKA_I32, 0, 0, 0}, small = {.size = 19, .kind = RUTHVELKA_I32};
    expect("value types", !ruthvelka_types_matches(NULL, &value, &value) && !ruthvelka_types_matches(&types, NULL, &value)
        && !ruthvelka_types_matches(&types, &value, NULL) && !ruthvelka_types_matches(&types, &small, &value)
        && !ruthvelka_types_matches(&types, &value, &small) && !passed.name);
    expect("questions", !ruthvelka_types_is_subtype(NULL, 0, 0) && !ruthvelka_types_entity_may_be_given(&types, 0, &types, 0)
        && !ruthvelka_types_entity_may_be_given(NULL, 0, &types, 0) && !ruthvelka_types_entity_may_be_given(&types, 0, NULL, 0) && !passed.name);
}

/* The outcome of a call with this status, where something was reported. */
static void expect_outcome(const char *what, const struct ruthvelka_outcome *outcome, uint32_t its_status) {
    struct ruthvelka_outcome wanted = right;
    wanted.status = its_status;
    expect(what, !memcmp(outcome, &wanted, sizeof wanted));
}

static void try_check(void) {
    static const uint32_t statuses[] = {VALID, REFUSED, NO_MEMORY};
    for (status = 0; status < 3; status++) {
        struct ruthvelka_outcome outcome = {.size = sizeof outcome};
        expect("a check", ruthvelka_check(bytes, 3, 6, message, 2, &outcome) == statuses[status]);
        expect_passed("validate", NULL, 3, 2);
        expect("its arguments", passed.places[0] == bytes && passed.places[1] == message && passed.numbers[0] == 6);
        expect_outcome("its outcome", &outcome, statuses[status]);
        expect("null pointers of a check", ruthvelka_check(NULL, 0, STANDARD, NULL, 0, NULL) == statuses[status] && passed.places[0] && passed.places[1]);
    }
}

static void try_validator(void) {
    expect("new", ruthvelka_validator_new(&validator, 6, &over) == DONE && arena.blocks == 1 && passed.numbers[0] == 6);
    expect_passed("new", &validator, 0, 0);
    for (status = VALID; status <= WRONG; status++) {
        struct ruthvelka_outcome outcome = {.size = sizeof outcome};
        const long before = arena.blocks, is_valid = status == VALID;
        expect("validate", ruthvelka_validator_validate(&validator, bytes, 3, message, 2, &outcome, &types) == status);
        expect_passed("validate", &validator, 3, 2);
        expect("its arguments", passed.places[0] == bytes && passed.places[1] == message && passed.handles[1] && passed.handles[1] != &types);
        expect_outcome("its outcome", &outcome, status);
        expect("what it keeps", is_nothing(&types) == !is_valid && arena.blocks == before + 2 * is_valid);
        if (!is_valid) continue;
        expect("the copy", retain.handles[1] == &types && retain.places[0] == validator.words[2]);
        freed = NULL, ruthvelka_types_release(&types);
        expect("what is freed", freed == &types);
        expect("null pointers of validate", ruthvelka_validator_validate(&validator, NULL, 0, NULL, 0, NULL, NULL) == status
            && arena.blocks == before + 1);
        expect("what stands in their place", passed.places[0] && passed.places[1] && passed.handles[1]);
    }
    struct ruthvelka_outcome outcome = {.size = sizeof outcome};
    void *const last = validator.words[2];
    status = VALID, retained = NO_MEMORY;
    expect("no memory for a copy", ruthvelka_validator_validate(&validator, bytes, 3, message, 2, &outcome, &types) == NO_MEMORY
        && outcome.status == NO_MEMORY && !outcome.types && is_nothing(&types) && validator.words[2] == last && arena.blocks == 2);
    expect("no memory for the last", ruthvelka_validator_types(&validator, &types) == NO_MEMORY && is_nothing(&types));
    retained = DONE;
    expect("the last", ruthvelka_validator_types(&validator, &types) == DONE && retain.handles[0] == &validator.words[2]
        && retain.handles[1] == &types && arena.blocks == 3);
    ruthvelka_types_release(&types);
    const long requests = arena.requests;
    expect("reset", ruthvelka_validator_reset(&validator) == FAILED && arena.requests == requests + 1 && passed.handles[0] == &validator);
}

static void try_types(void) {
    struct ruthvelka_outcome outcome = {.size = sizeof outcome};
    status = VALID;
    ruthvelka_validator_validate(&validator, bytes, 3, message, 2, NULL, &types);
    retained = NO_MEMORY;
    expect("no copy", ruthvelka_types_retain(&types, &others) == NO_MEMORY && is_nothing(&others));
    retained = status = DONE;
    expect("a copy", ruthvelka_types_retain(&types, &others) == DONE && arena.blocks == 4 && retain.handles[0] == &types
        && retain.handles[1] == &others);
    expect("ids", ruthvelka_types_ids(&types, &outcome, type_ids, 3, function_ids, 2) == DONE && passed.places[0] == type_ids
        && passed.places[1] == function_ids);
    expect_passed("ids", &types, 3, 2);
    expect_outcome("their outcome", &outcome, DONE);
    expect("null pointers of ids", ruthvelka_types_ids(&types, NULL, NULL, 0, NULL, 0) == DONE && passed.places[0] && passed.places[1]);
    for (status = 0; status < 22; status++) {
        expect("below", ruthvelka_types_is_subtype(&types, 3, 4) == (status == 1) && passed.numbers[0] == 3 && passed.numbers[1] == 4);
        const struct ruthvelka_value_type first = {.size = 20, .kind = 11, .heap = 12, .id = 13, .flags = 14},
            second = {sizeof second, 15, 16, 17, 18};
        expect("matches", ruthvelka_types_matches(&types, &first, &second) == (status == 1) && passed.handles[0] == &types && asked[0].kind == 11
            && asked[0].heap == 12 && asked[0].id == 13 && !asked[0].flags && !memcmp(&asked[1], &second, sizeof second));
        expect("given", ruthvelka_types_entity_may_be_given(&types, 5, &others, 6) == (status == 1) && passed.numbers[0] == 5 && passed.numbers[1] == 6
            && passed.handles[0] == &types && passed.handles[1] == &others);
    }
}

static void try_told(void) {
    struct ruthvelka_outcome outcome = {.size = sizeof outcome};
    struct ruthvelka_signature signature = {sizeof signature, 7, 7};
    imports->size = exports->size = sizeof *imports, params->size = results->size = sizeof *params;
    status = NO_MEMORY;
    expect("no memory for imports", ruthvelka_types_externs(&types, &outcome, imports, 3, exports, 2, message, 1) == NO_MEMORY
        && outcome.status == NO_MEMORY && !outcome.imports);
    status = DONE;
    const long requests = arena.requests;
    expect("externs", ruthvelka_types_externs(&types, &outcome, imports, 3, exports, 2, message, 1) == DONE && passed.places[0] == imports
        && passed.places[1] == exports && passed.places[2] == message && passed.counts[2] == 1 && arena.requests == requests + 1);
    expect_passed("externs", &types, 3, 2);
    expect_outcome("their outcome", &outcome, DONE);
    expect("null pointers of externs", ruthvelka_types_externs(&types, NULL, NULL, 0, NULL, 0, NULL, 0) == DONE && passed.places[0]
        && passed.places[1] && passed.places[2]);
    expect("a signature", ruthvelka_types_signature(&types, 9, &signature, params, 3, results, 2) == DONE && passed.places[0] == params
        && passed.places[1] == results && passed.numbers[0] == 9 && signature.params == 21 && signature.results == 22);
    expect_passed("signature", &types, 3, 2);
    expect("null pointers of a signature", ruthvelka_types_signature(&types, 9, NULL, NULL, 0, NULL, 0) == DONE && passed.places[0]
        && passed.places[1]);
    status = WRONG, signature.params = 7;
    expect("no signature", ruthvelka_types_signature(&types, 9, &signature, params, 3, results, 2) == WRONG && signature.params == 7);
}

int main(void) {
    try_check();
    try_validator();
    try_types();
    try_told();
    try_wrong();
    ruthvelka_types_release(&types), ruthvelka_types_release(&others), ruthvelka_validator_free(&validator);
    freed = NULL;
    ruthvelka_types_release(&types), ruthvelka_types_release(&others), ruthvelka_validator_free(&validator);
    expect("nothing is freed twice", !freed);
    expect("all is given back", !arena.blocks && is_nothing(&types) && is_nothing(&others) && is_nothing(&validator));
    printf("%ld wrong arguments of handles\n", wrong);
    return wrong != 0;
}
