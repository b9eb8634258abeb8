/* The calls on handles: what they answer on modules that are loaded one after another, how they link, what stays when a validator fails or is freed,
   how much of an outcome is written, and where memory comes from. All that is expected was written from the bytes of the modules by hand. */
#include "handles.h"

#include <pthread.h>

/* Loads number `number` of the row, whose types have to have the ids 0 and `number`. */
static void load(struct ruthvelka_validator *validator, uint8_t number, struct ruthvelka_types *types) {
    uint8_t bytes[64];
    uint32_t ids[3] = {7, 7, 7};
    struct ruthvelka_outcome outcome = {.size = sizeof outcome};
    const size_t length = write_module(bytes, number);
    expect("a module of a row", ruthvelka_validator_validate(validator, bytes, length, NULL, 0, &outcome, types) == VALID);
    expect("the outcome of a module of a row", outcome.status == VALID && outcome.types == 2 && !outcome.functions && !outcome.offset
        && outcome.function == NOWHERE && outcome.size == sizeof outcome);
    memset(&outcome, 7, sizeof outcome), outcome.size = sizeof outcome;
    expect("ids of a module of a row", ruthvelka_types_ids(types, &outcome, ids, 3, NULL, 0) == DONE && outcome.status == DONE && outcome.types == 2
        && ids[0] == 0 && ids[1] == number && ids[2] == 7);
}

/* Ten modules one after another, and again from the last one on: equal types have one id in all of them. */
static void try_row(struct ruthvelka_validator *validator) {
    struct ruthvelka_types types[20];
    memset(types, 0, sizeof types);
    for (uint8_t it = 0; it < 10; it++) load(validator, it, &types[it]);
    for (uint8_t it = 0; it < 10; it++) load(validator, (uint8_t)(9 - it), &types[10 + it]);
    for (uint32_t it = 0; it < 12; it++) {
        expect("each type is below itself alone", ruthvelka_types_is_subtype(&types[9], it, 9) == (it == 9));
        expect("types know those of modules before", ruthvelka_types_is_subtype(&types[4], it, it) == (it <= 4));
    }
    for (int it = 0; it < 20; it++) ruthvelka_types_release(&types[it]);
    for (int it = 0; it < 20; it++) expect("what was released holds nothing", is_nothing(&types[it]));
}

/* `many` has the types 0 to 2; of `user` type 0 is the last of them, type 1 new, 2 an open one of [] -> [], 3 a final one below it, 4 the first. */
static const uint32_t ids_of_many[] = {0, 1, 2}, ids_of_user[] = {2, 3, 4, 5, 0}, functions_of_user[] = {0, 3, 2, 5};

static void try_ids(struct ruthvelka_types *many_types, struct ruthvelka_types *user_types) {
    uint32_t ids[6], functions[6];
    struct ruthvelka_outcome outcome = {.size = sizeof outcome};
    memset(ids, 7, sizeof ids), memset(functions, 7, sizeof functions);
    expect("ids of many", ruthvelka_types_ids(many_types, NULL, ids, 3, functions, 2) == DONE && !memcmp(ids, ids_of_many, sizeof ids_of_many)
        && functions[0] == 2 && functions[1] == 0 && ids[3] == 0x07070707);
    expect("ids of user", ruthvelka_types_ids(user_types, &outcome, ids, 6, functions, 3) == DONE && !memcmp(ids, ids_of_user, sizeof ids_of_user)
        && !memcmp(functions, functions_of_user, 12) && functions[3] == 0x07070707 && outcome.types == 5 && outcome.functions == 4
        && outcome.imports == 3 && outcome.exports == 1 && outcome.memories == 1 && !outcome.tables && !outcome.globals && !outcome.tags);
    for (uint32_t a = 0; a < 8; a++)
        for (uint32_t b = 0; b < 8; b++)
            expect("subtyping by ids", ruthvelka_types_is_subtype(user_types, a, b) == ((a == b && a < 6) || (a == 5 && b == 4)));
}

/* Whether a value type of these numbers matches one of those. */
static int matches(struct ruthvelka_types *types, uint32_t kind, uint32_t heap, uint32_t id, uint32_t other_kind, uint32_t other_heap, uint32_t other_id) {
    const struct ruthvelka_value_type first = {sizeof first, kind, heap, id, 0},
        second = {sizeof second, other_kind, other_heap, other_id, 0};
    return (int)ruthvelka_types_matches(types, &first, &second);
}

/* Numbers and vectors match themselves alone; references by what they are to, and by whether they may be null. */
static void try_values(struct ruthvelka_types *types) {
    for (uint32_t a = 0x5f; a < 0x81; a++)
        for (uint32_t b = 0x5f; b < 0x81; b++) {
            const int is_plain = a == b && a >= 0x7b && a <= 0x7f, are_references = a >= 0x63 && a <= 0x64 && b >= 0x63 && b <= 0x64;
            expect("values", matches(types, a, 0, 5, b, 0, 4) == (is_plain || (are_references && a >= b)));
            expect("values of no types", matches(types, a, 0, 6, b, 0, 6) == is_plain);
        }
    for (uint32_t heap = 0x60; heap < 0x80; heap++) {
        const int is_one = heap >= 0x68 && heap <= 0x75;
        expect("a heap type matches itself", matches(types, 0x64, heap, 0, 0x63, heap, 9) == is_one);
        expect("a type matches that of functions", matches(types, 0x64, 0, 5, 0x63, heap, 0) == (heap == 0x70));
        expect("nothing below functions matches a type", matches(types, 0x64, heap, 0, 0x63, 0, 5) == (heap == 0x73));
        expect("what can be taken apart", matches(types, 0x63, heap, 0, 0x63, 0x6e, 0) == ((heap >= 0x6a && heap <= 0x6e) || heap == 0x71));
    }
    expect("no id is so large", !matches(types, 0x64, 0, 1048576, 0x64, 0, 1048576) && !matches(types, 0x64, 0, UINT32_MAX, 0x64, 0, UINT32_MAX));
}

/* Of the exports of `many` these may be given for the imports of `user`: a function of [] -> [], one of [] -> [i32], and a memory of one page. */
static void try_links(struct ruthvelka_types *many_types, struct ruthvelka_types *user_types) {
    for (uint32_t exported = 0; exported < 11; exported++)
        for (uint32_t imported = 0; imported < 5; imported++) {
            struct ruthvelka_query query = {RUTHVELKA_MAY_BE_GIVEN, 0, exported, 1, imported, 9};
            const struct ruthvelka_bytes list[] = {{many, sizeof many}, {user, sizeof user}};
            const uint32_t given = ruthvelka_types_entity_may_be_given(many_types, exported, user_types, imported);
            ruthvelka_validate_list_with_queries(list, 2, STANDARD, NULL, 0, &query, 1);
            expect("what may be given, as a list says", given == (query.answer == RUTHVELKA_YES));
            expect("the one function that may be given", !(exported == 0 && imported == 0) || given);
            expect("one of another type", !(exported == 1 && imported < 2) || !given);
        }
    expect("one handle twice", !ruthvelka_types_entity_may_be_given(many_types, 0, many_types, 0));
}

/* A body that is refused doesn't stop the validator, and nor do bytes without a header. Behind a section that is refused it has failed for good. */
static void try_refusals(struct ruthvelka_validator *validator, struct ruthvelka_types *kept) {
    struct ruthvelka_types types = NOTHING;
    struct ruthvelka_outcome outcome = {.size = sizeof outcome};
    char text[64];
    memset(text, 7, sizeof text);
    expect("a wrong body", ruthvelka_validator_validate(validator, wrong_body, sizeof wrong_body, text, 12, &outcome, &types) == REFUSED);
    expect("the outcome of a wrong body", outcome.status == REFUSED && outcome.function == 1 && outcome.offset == 34 && is_nothing(&types)
        && outcome.message_length == sizeof WRONG_BODY - 1 && !memcmp(text, WRONG_BODY, 12) && text[12] == 7 && !outcome.types);
    expect("bytes without a header", ruthvelka_validator_validate(validator, NULL, 0, NULL, 0, NULL, &types) == REFUSED && is_nothing(&types));
    expect("it goes on", ruthvelka_validator_reset(validator) == DONE);
    expect("a section", ruthvelka_validator_validate(validator, small_pages, sizeof small_pages, NULL, 0, &outcome, &types) == REFUSED
        && outcome.missing_features == 32768 && outcome.offset == 11 && outcome.function == NOWHERE && is_nothing(&types));
    for (int it = 0; it < 3; it++) {
        memset(&outcome, 7, sizeof outcome), outcome.size = sizeof outcome;
        expect("it has failed", ruthvelka_validator_validate(validator, many, sizeof many, NULL, 0, &outcome, &types) == FAILED
            && outcome.status == FAILED && !outcome.types && !outcome.message_length && !outcome.offset && outcome.function == NOWHERE
            && is_nothing(&types));
        expect("it stays failed", ruthvelka_validator_reset(validator) == FAILED);
    }
    expect("types stay", ruthvelka_types_is_subtype(kept, 5, 4));
}

/* Two modules that are linked; then what is left of them behind a failure, and when the validator is gone. */
static void try_modules(const struct ruthvelka_allocator *allocator) {
    struct ruthvelka_validator validator = NOTHING;
    struct ruthvelka_types many_types = NOTHING, user_types = NOTHING, copy = NOTHING;
    expect("a validator", ruthvelka_validator_new(&validator, STANDARD, allocator) == DONE);
    expect("many", ruthvelka_validator_validate(&validator, many, sizeof many, NULL, 0, NULL, &many_types) == VALID);
    expect("user", ruthvelka_validator_validate(&validator, user, sizeof user, NULL, 0, NULL, &user_types) == VALID);
    try_ids(&many_types, &user_types);
    try_links(&many_types, &user_types);
    try_values(&user_types);
    expect("no types are asked for", ruthvelka_validator_validate(&validator, user, sizeof user, NULL, 0, NULL, NULL) == VALID);
    try_refusals(&validator, &user_types);
    expect("a copy", ruthvelka_types_retain(&user_types, &copy) == DONE);
    ruthvelka_types_release(&user_types);
    ruthvelka_validator_free(&validator);
    struct ruthvelka_types moved = copy;
    try_ids(&many_types, &moved);
    try_links(&many_types, &moved);
    ruthvelka_types_release(&moved), ruthvelka_types_release(&many_types);
}

/* A handle that holds nothing, whether it never held anything or was freed; a null one; and one that is to be filled and holds something. */
static void try_wrong_handles(void) {
    struct ruthvelka_validator validator = NOTHING, *const validators[] = {NULL, &validator};
    struct ruthvelka_types types = NOTHING, held = NOTHING, *const both[] = {NULL, &types};
    struct ruthvelka_outcome outcome = {.size = sizeof outcome};
    for (int round = 0; round < 2; round++) {
        for (int it = 0; it < 2; it++) {
            outcome.status = VALID, outcome.types = 3;
            expect("validate", ruthvelka_validator_validate(validators[it], many, sizeof many, NULL, 0, &outcome, &held) == WRONG && is_nothing(&held)
                && outcome.status == WRONG && !outcome.types && outcome.function == NOWHERE);
            expect("reset", ruthvelka_validator_reset(validators[it]) == WRONG);
            expect("retain", ruthvelka_types_retain(both[it], &held) == WRONG && is_nothing(&held));
            outcome.status = DONE, outcome.types = 3, outcome.function = 5, outcome.offset = 7;
            expect("ids", ruthvelka_types_ids(both[it], &outcome, NULL, 0, NULL, 0) == WRONG && outcome.status == WRONG && !outcome.types
                && outcome.function == NOWHERE && !outcome.offset);
            expect("subtype", !ruthvelka_types_is_subtype(both[it], 0, 0) && !matches(both[it], 0x7f, 0, 0, 0x7f, 0, 0));
            expect("given", !ruthvelka_types_entity_may_be_given(both[it], 0, &held, 0) && !ruthvelka_types_entity_may_be_given(&held, 0, both[it], 0));
            ruthvelka_types_release(both[it]), ruthvelka_validator_free(validators[it]);
        }
        expect("new", ruthvelka_validator_new(&validator, STANDARD, NULL) == DONE && ruthvelka_validator_new(&validator, STANDARD, NULL) == WRONG);
        expect("types", ruthvelka_validator_validate(&validator, many, sizeof many, NULL, 0, NULL, &types) == VALID);
        expect("full", ruthvelka_validator_validate(&validator, user, sizeof user, NULL, 0, &outcome, &types) == WRONG && outcome.status == WRONG);
        expect("a full copy", ruthvelka_types_retain(&types, &types) == WRONG && ruthvelka_types_retain(&types, NULL) == WRONG);
        expect("all as it was", ruthvelka_types_is_subtype(&types, 2, 2) && !ruthvelka_types_is_subtype(&types, 3, 3));
        ruthvelka_types_release(&types), ruthvelka_validator_free(&validator);
        expect("freed", is_nothing(&types) && is_nothing(&validator));
    }
    expect("no place", ruthvelka_validator_new(NULL, STANDARD, NULL) == WRONG);
}

/* Ids of one validator say nothing of those of another, also where both have validated the same modules. */
static void try_two_validators(void) {
    struct ruthvelka_validator one = NOTHING, other = NOTHING;
    struct ruthvelka_types types = NOTHING, others = NOTHING;
    expect("two validators", ruthvelka_validator_new(&one, STANDARD, NULL) == DONE && ruthvelka_validator_new(&other, STANDARD, NULL) == DONE);
    ruthvelka_validator_validate(&one, many, sizeof many, NULL, 0, NULL, &types);
    ruthvelka_validator_validate(&other, many, sizeof many, NULL, 0, NULL, NULL);
    ruthvelka_validator_validate(&other, user, sizeof user, NULL, 0, NULL, &others);
    expect("modules of two validators", !ruthvelka_types_entity_may_be_given(&types, 0, &others, 0));
    ruthvelka_types_release(&others);
    ruthvelka_validator_validate(&one, user, sizeof user, NULL, 0, NULL, &others);
    expect("modules of one", ruthvelka_types_entity_may_be_given(&types, 0, &others, 0) == RUTHVELKA_YES);
    ruthvelka_types_release(&types), ruthvelka_types_release(&others), ruthvelka_validator_free(&one), ruthvelka_validator_free(&other);
}

/* As many bytes of an outcome are written as its size says, and no more than there are; none where there is no room for a status. */
static void try_sizes(struct ruthvelka_validator *validator) {
    const struct ruthvelka_outcome whole = {.status = VALID, .function = NOWHERE, .imports = 8, .exports = 9, .types = 3, .functions = 2, .tables = 4,
        .memories = 5, .globals = 6, .tags = 7};
    for (uint64_t size = 0; size < 120; size++)
        for (int call = 0; call < 2; call++) {
            union {
                struct ruthvelka_outcome outcome;
                uint8_t bytes[128];
            } told, right;
            memset(&told, 7, sizeof told), told.outcome.size = size, right = told;
            if (size >= 16) memcpy(right.bytes + 8, (const uint8_t *)&whole + 8, (size < sizeof whole ? (size_t)size : sizeof whole) - 8);
            const uint32_t status = call ? ruthvelka_check(many, sizeof many, STANDARD, NULL, 0, &told.outcome)
                                         : ruthvelka_validator_validate(validator, many, sizeof many, NULL, 0, &told.outcome, NULL);
            expect("the status of an outcome of this size", status == (size < 16 ? WRONG : VALID));
            expect("an outcome of this size", !memcmp(&told, &right, sizeof told));
        }
}

/* One module by itself. */
static void try_check(void) {
    struct ruthvelka_outcome outcome = {.size = sizeof outcome};
    char text[96];
    memset(text, 7, sizeof text);
    expect("a refusal", ruthvelka_check(one_name, sizeof one_name, STANDARD, text, sizeof text, &outcome) == REFUSED && outcome.status == REFUSED
        && outcome.offset == 32 && outcome.message_length == sizeof ONE_NAME - 1 && !memcmp(text, ONE_NAME, sizeof ONE_NAME - 1)
        && text[sizeof ONE_NAME - 1] == 7 && outcome.function == NOWHERE);
    expect("no outcome", ruthvelka_check(many, sizeof many, STANDARD, NULL, 0, NULL) == VALID);
    expect("a feature", ruthvelka_check(small_pages, sizeof small_pages, STANDARD | 32768, NULL, 0, &outcome) == VALID && outcome.memories == 1);
    outcome.status = VALID;
    expect("an unknown feature", ruthvelka_check(many, sizeof many, UINT64_C(1) << 40, NULL, 0, &outcome) == WRONG && outcome.status == WRONG
        && !outcome.memories);
    expect("no bytes", ruthvelka_check(NULL, 1, STANDARD, NULL, 0, &outcome) == WRONG && ruthvelka_check(NULL, 0, STANDARD, NULL, 0, NULL) == REFUSED);
}

/* A validator and its types take memory from its allocator alone, whatever else is set meanwhile, and give all of it back. */
static void *no_block(size_t size) {
    return size ? NULL : NULL;
}
static void *no_resize(void *block, size_t size) {
    return block && size ? NULL : NULL;
}
static void no_release(void *block) {
    expect("nothing is released elsewhere", !block);
}

static void try_allocators(void) {
    struct arena arena = {0, 0, -1};
    const struct ruthvelka_allocator over = OVER(&arena);
    ruthvelka_set_allocator(no_block, no_resize, no_release);
    struct ruthvelka_validator validator = NOTHING, plain = NOTHING;
    expect("over an arena", ruthvelka_validator_new(&validator, STANDARD, &over) == DONE && arena.blocks == 1);
    expect("over malloc", ruthvelka_validator_new(&plain, STANDARD, NULL) == DONE);
    expect("no memory without a handle", ruthvelka_check(many, sizeof many, STANDARD, NULL, 0, NULL) == NO_MEMORY);
    try_row(&validator), try_row(&plain);
    expect("memory is held", arena.blocks > 1);
    ruthvelka_validator_free(&validator), ruthvelka_validator_free(&plain);
    expect("all is given back", !arena.blocks);
    ruthvelka_set_allocator(NULL, NULL, NULL);
    try_modules(&over);
    expect("all is given back of modules", !arena.blocks);
    struct ruthvelka_allocator lacking[] = {OVER(&arena), OVER(&arena), OVER(&arena), OVER(&arena)};
    lacking[0].size--, lacking[1].allocate = NULL, lacking[2].resize = NULL, lacking[3].release = NULL;
    for (int it = 0; it < 4; it++)
        expect("an allocator that lacks something", ruthvelka_validator_new(&validator, STANDARD, &lacking[it]) == WRONG && is_nothing(&validator));
    expect("an unknown feature", ruthvelka_validator_new(&validator, UINT64_C(1) << 40, NULL) == WRONG && is_nothing(&validator));
}

/* Validators of two threads, each over an arena of its own. */
static void *run_thread(void *unused) {
    (void)unused;
    struct arena arena = {0, 0, -1};
    const struct ruthvelka_allocator over = OVER(&arena);
    long held = 0;
    for (int it = 0; it < 20; it++) {
        struct ruthvelka_validator validator = NOTHING;
        struct ruthvelka_types types = NOTHING;
        held |= ruthvelka_validator_new(&validator, STANDARD, &over) != DONE;
        held |= ruthvelka_validator_validate(&validator, many, sizeof many, NULL, 0, NULL, &types) != VALID;
        ruthvelka_validator_free(&validator), ruthvelka_types_release(&types);
        held |= arena.blocks;
    }
    return held ? NULL : (void *)(uintptr_t)1;
}

static void try_threads(void) {
    pthread_t threads[2];
    for (int it = 0; it < 2; it++) expect("a thread", !pthread_create(&threads[it], NULL, run_thread, NULL));
    for (int it = 0; it < 2; it++) {
        void *is_right = NULL;
        expect("a thread that ends", !pthread_join(threads[it], &is_right) && is_right);
    }
}

int main(void) {
    struct ruthvelka_validator validator = NOTHING;
    expect("a validator for sizes", ruthvelka_validator_new(&validator, STANDARD, NULL) == DONE);
    try_sizes(&validator);
    ruthvelka_validator_free(&validator);
    try_modules(NULL);
    try_wrong_handles();
    try_two_validators();
    try_check();
    try_allocators();
    try_threads();
    printf("%ld wrong answers of handles\n", wrong);
    return wrong != 0;
}
