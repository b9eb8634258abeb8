/* What kept types tell: the whole type of each import and export, and what functions take and give, with each room, and nothing written beyond it; of
   the last module that a validator accepted too; and where each request for memory is refused in turn. All that is expected was written from the
   bytes of the modules by hand. */
#include "handles.h"

#define BESIDE (STANDARD | RUTHVELKA_CUSTOM_PAGE_SIZES | RUTHVELKA_CUSTOM_DESCRIPTORS | RUTHVELKA_SHARED_EVERYTHING_THREADS)

/* Imports from "a" of each kind under proposals beside the standard ones, and three exports. */
static const uint8_t rich[] = {0x00, 0x61, 0x73, 0x6d, 0x01, 0x00, 0x00, 0x00,
    /* types: a group of a function (ref null 1) -> (ref 0) and a structure; and a function i32 i64 f32 f64 v128 -> externref (ref null 1) */
    0x01, 0x17, 0x02, 0x4e, 0x02, 0x60, 0x01, 0x63, 0x01, 0x01, 0x64, 0x00, 0x5f, 0x00,
    0x60, 0x05, 0x7f, 0x7e, 0x7d, 0x7c, 0x7b, 0x02, 0x6f, 0x63, 0x01,
    /* imports: f, a function of exactly type 0; h, one of type 2; t, a table of (ref null 1) with 64 bits, 5 to 9 */
    0x02, 0x3b, 0x07, 0x01, 'a', 0x01, 'f', 0x20, 0x00, 0x01, 'a', 0x01, 'h', 0x00, 0x02, 0x01, 'a', 0x01, 't', 0x01, 0x63, 0x01, 0x05, 0x05, 0x09,
    /* m, a shared memory with 64 bits and pages of one byte, 7 to 128; g, a shared global (ref null (shared any)) that can be written */
    0x01, 'a', 0x01, 'm', 0x02, 0x0f, 0x07, 0x80, 0x01, 0x00, 0x01, 'a', 0x01, 'g', 0x03, 0x63, 0x65, 0x6e, 0x03,
    /* e, a global (ref (exact 1)); s, a table of functions, 2 or more */
    0x01, 'a', 0x01, 'e', 0x03, 0x64, 0x62, 0x01, 0x00, 0x01, 'a', 0x01, 's', 0x01, 0x70, 0x00, 0x02,
    /* exports: T, table 0; G, global 1; F, function 0 */
    0x07, 0x0d, 0x03, 0x01, 'T', 0x01, 0x00, 0x01, 'G', 0x03, 0x01, 0x01, 'F', 0x00, 0x00};

#define VALUE(kind, heap, id, flags) {24, kind, heap, id, flags}
#define NO_VALUE VALUE(0, 0, 0, 0)
#define FUNC_REF VALUE(0x63, 0x70, 0, 0)
#define NAMES(module_at, module_size, name_at, name_size) \
    .size = 96, .module_start = module_at, .module_length = module_size, .name_start = name_at, .name_length = name_size
#define BY_ID(names, number, its_id) \
    { names, .kind = number, .type_id = its_id, .value = NO_VALUE }
#define TABLE(names, least, most, its_flags, ...) \
    { names, .minimum = least, .maximum = most, .kind = 1, .type_id = NO_ID, .flags = its_flags, .value = __VA_ARGS__ }
#define MEMORY(names, least, most, its_flags, page) \
    { names, .minimum = least, .maximum = most, .kind = 2, .type_id = NO_ID, .flags = its_flags, .page_size_log2 = page, .value = NO_VALUE }
#define GLOBAL(names, its_flags, ...) \
    { names, .kind = 3, .type_id = NO_ID, .flags = its_flags, .value = __VA_ARGS__ }
#define PLACES(...) __VA_ARGS__

static const struct ruthvelka_extern_type many_imports[] = {BY_ID(PLACES(NAMES(0, 3, 3, 4)), 0, 2), BY_ID(PLACES(NAMES(7, 3, 10, 4)), 4, 0),
    TABLE(PLACES(NAMES(14, 3, 17, 3)), 1, 0, 0, FUNC_REF), MEMORY(PLACES(NAMES(20, 1, 21, 6)), 1, 0, 0, 16),
    GLOBAL(PLACES(NAMES(27, 1, 28, 0)), 0, VALUE(0x7f, 0, 0, 0)), GLOBAL(PLACES(NAMES(28, 0, 28, 6)), 8, VALUE(0x7c, 0, 0, 0)),
    BY_ID(PLACES(NAMES(34, 1, 35, 3)), 4, 1), BY_ID(PLACES(NAMES(38, 1, 39, 5)), 4, 0)};
/* By custom descriptors x, which the module defines, has exactly its type. */
static const struct ruthvelka_extern_type many_exports[] = {BY_ID(PLACES(NAMES(44, 0, 44, 1)), 32, 0), BY_ID(PLACES(NAMES(45, 0, 45, 5)), 0, 2),
    TABLE(PLACES(NAMES(50, 0, 50, 5)), 1, 3, 1, FUNC_REF), MEMORY(PLACES(NAMES(55, 0, 55, 3)), 3, 0, 0, 16),
    GLOBAL(PLACES(NAMES(58, 0, 58, 0)), 0, VALUE(0x7f, 0, 0, 0)), BY_ID(PLACES(NAMES(58, 0, 58, 1)), 4, 1),
    BY_ID(PLACES(NAMES(59, 0, 59, 2)), 4, 0), MEMORY(PLACES(NAMES(61, 0, 61, 2)), 1, 0, 0, 16),
    GLOBAL(PLACES(NAMES(63, 0, 63, 2)), 0, VALUE(0x7f, 0, 0, 0))};
#define MANY_NAMES "envfuncenvfuncenvtabmmemorymglobalttagtotherxfirsttablememeeem0gl"

/* Behind `many`, which has the ids 0, 1 and 2, the types of `rich` have the ids 3, 4 and 5. */
static const struct ruthvelka_extern_type rich_imports[] = {BY_ID(PLACES(NAMES(0, 1, 1, 1)), 32, 3), BY_ID(PLACES(NAMES(2, 1, 3, 1)), 0, 5),
    TABLE(PLACES(NAMES(4, 1, 5, 1)), 5, 9, 3, VALUE(0x63, 0, 4, 0)), MEMORY(PLACES(NAMES(6, 1, 7, 1)), 7, 128, 7, 0),
    GLOBAL(PLACES(NAMES(8, 1, 9, 1)), 12, VALUE(0x63, 0x6e, 0, 1)), GLOBAL(PLACES(NAMES(10, 1, 11, 1)), 0, VALUE(0x64, 0, 4, 2)),
    TABLE(PLACES(NAMES(12, 1, 13, 1)), 2, 0, 0, FUNC_REF)};
static const struct ruthvelka_extern_type rich_exports[] = {TABLE(PLACES(NAMES(14, 0, 14, 1)), 5, 9, 3, VALUE(0x63, 0, 4, 0)),
    GLOBAL(PLACES(NAMES(15, 0, 15, 1)), 0, VALUE(0x64, 0, 4, 2)), BY_ID(PLACES(NAMES(16, 0, 16, 1)), 32, 3)};
#define RICH_NAMES "afahatamagaeasTGF"

/* A module's imports, exports and names. */
static const struct told {
    const struct ruthvelka_extern_type *imports, *exports;
    size_t import_count, export_count;
    const char *names;
} of_many = {many_imports, many_exports, 8, 9, MANY_NAMES}, of_rich = {rich_imports, rich_exports, 7, 3, RICH_NAMES};

/* Arrays with guards around them. */
static struct {
    uint8_t guard_0[128];
    struct ruthvelka_extern_type imports[12];
    uint8_t guard_1[128];
    struct ruthvelka_extern_type exports[12];
    uint8_t guard_2[128];
    char names[80];
    uint8_t guard_3[128];
    struct ruthvelka_value_type params[8];
    uint8_t guard_4[128];
    struct ruthvelka_value_type results[8];
    uint8_t guard_5[128];
} told, right;

static size_t least(size_t a, size_t b) {
    return a < b ? a : b;
}

/* All is as before but the sizes of the first items. */
static void begin(void) {
    memset(&told, 7, sizeof told);
    told.imports->size = told.exports->size = sizeof *told.imports, told.params->size = told.results->size = sizeof *told.params;
    right = told;
}

/* The imports and exports of a module with these rooms; a room of 13 stands for a null pointer. */
static void try_rooms(struct ruthvelka_types *types, const struct told *it, size_t imports, size_t exports, size_t names) {
    struct ruthvelka_outcome outcome = {.size = sizeof outcome};
    const size_t i = imports == 13 ? 0 : imports, e = exports == 13 ? 0 : exports, length = strlen(it->names), n = names == 13 ? 0 : names;
    begin();
    memcpy(right.imports, it->imports, least(i, it->import_count) * sizeof *it->imports);
    memcpy(right.exports, it->exports, least(e, it->export_count) * sizeof *it->exports);
    memcpy(right.names, it->names, least(n, length));
    expect("imports and exports", ruthvelka_types_externs(types, &outcome, imports == 13 ? NULL : told.imports, i,
        exports == 13 ? NULL : told.exports, e, names == 13 ? NULL : told.names, n) == DONE);
    expect("how many there are", outcome.status == DONE && outcome.imports == it->import_count && outcome.exports == it->export_count
        && outcome.names_length == length && outcome.function == NOWHERE && !outcome.offset && !outcome.message_length);
    expect("what is written", !memcmp(&told, &right, sizeof told));
}

static void try_externs(struct ruthvelka_types *types, const struct told *it) {
    for (size_t room = 0; room < 14; room++) {
        try_rooms(types, it, room, 12, 80), try_rooms(types, it, 12, room, 80), try_rooms(types, it, room, room, room);
        try_rooms(types, it, 13, 13, 60 + room);
    }
    expect("no outcome", ruthvelka_types_externs(types, NULL, NULL, 0, NULL, 0, NULL, 0) == DONE);
}

/* What a function of the type with this id takes and gives, with each room. */
static void try_signature(struct ruthvelka_types *types, uint32_t id, const struct ruthvelka_value_type *params, size_t param_count,
    const struct ruthvelka_value_type *results, size_t result_count) {
    for (size_t room = 0; room < 9; room++)
        for (size_t other = 0; other < 9; other++) {
            struct ruthvelka_signature signature = {sizeof signature, 7, 7};
            begin();
            if (param_count) memcpy(right.params, params, least(room, param_count) * sizeof *params);
            if (result_count) memcpy(right.results, results, least(other, result_count) * sizeof *results);
            expect("a signature", ruthvelka_types_signature(types, id, &signature, told.params, room, told.results, other) == DONE
                && signature.size == sizeof signature && signature.params == param_count && signature.results == result_count);
            expect("its value types", !memcmp(&told, &right, sizeof told));
        }
    expect("no arrays", ruthvelka_types_signature(types, id, NULL, NULL, 0, NULL, 0) == DONE);
}

/* No function type stands under this id: nothing is written. */
static void try_no_signature(struct ruthvelka_types *types, uint32_t id) {
    struct ruthvelka_signature signature = {sizeof signature, 7, 7};
    begin();
    expect("no function type", ruthvelka_types_signature(types, id, &signature, told.params, 8, told.results, 8) == WRONG && signature.params == 7
        && signature.results == 7 && !memcmp(&told, &right, sizeof told));
}

static void try_signatures(struct ruthvelka_types *many_types, struct ruthvelka_types *rich_types) {
    static const struct ruthvelka_value_type i64 = VALUE(0x7e, 0, 0, 0), i32 = VALUE(0x7f, 0, 0, 0), structure = VALUE(0x63, 0, 4, 0),
        function = VALUE(0x64, 0, 3, 0), numbers[] = {VALUE(0x7f, 0, 0, 0), VALUE(0x7e, 0, 0, 0), VALUE(0x7d, 0, 0, 0), VALUE(0x7c, 0, 0, 0),
        VALUE(0x7b, 0, 0, 0)}, references[] = {VALUE(0x63, 0x6f, 0, 0), VALUE(0x63, 0, 4, 0)};
    try_signature(many_types, 0, NULL, 0, NULL, 0), try_signature(many_types, 1, &i32, 1, NULL, 0), try_signature(many_types, 2, &i64, 1, &i32, 1);
    try_signature(rich_types, 2, &i64, 1, &i32, 1), try_signature(rich_types, 3, &structure, 1, &function, 1);
    try_signature(rich_types, 5, numbers, 5, references, 2);
    try_no_signature(rich_types, 4), try_no_signature(rich_types, 6), try_no_signature(rich_types, UINT32_MAX), try_no_signature(many_types, 3);
}

/* Value types that were told can be asked about: each matches itself, and an exact one that it isn't told to be matches less. */
static void try_told_values(struct ruthvelka_types *types) {
    struct ruthvelka_extern_type imports[7] = {{.size = sizeof imports[0]}};
    const struct ruthvelka_value_type any = VALUE(0x63, 0x6e, 0, 0), shared_none = VALUE(0x64, 0x71, 0, 1), open = VALUE(0x64, 0, 4, 0),
        both = VALUE(0x64, 0x6e, 0, 2), neither = VALUE(0x64, 0, 4, 1), unknown = VALUE(0x64, 0x6e, 0, 4),
        old = {.size = 20, .kind = 0x64, .id = 4, .flags = 9};
    expect("imports", ruthvelka_types_externs(types, NULL, imports, 7, NULL, 0, NULL, 0) == DONE);
    const struct ruthvelka_value_type *const shared = &imports[4].value, *const exact = &imports[5].value;
    expect("themselves", ruthvelka_types_matches(types, shared, shared) == RUTHVELKA_YES
        && ruthvelka_types_matches(types, exact, exact) == RUTHVELKA_YES);
    expect("shared ones", ruthvelka_types_matches(types, &shared_none, shared) == RUTHVELKA_YES && !ruthvelka_types_matches(types, &any, shared)
        && !ruthvelka_types_matches(types, shared, &any));
    expect("exact ones", ruthvelka_types_matches(types, exact, &open) == RUTHVELKA_YES && !ruthvelka_types_matches(types, &open, exact));
    expect("no flags", !ruthvelka_types_matches(types, &both, &both) && !ruthvelka_types_matches(types, &neither, &neither)
        && !ruthvelka_types_matches(types, &unknown, &unknown));
    expect("a smaller one", ruthvelka_types_matches(types, &old, &open) == RUTHVELKA_YES && !ruthvelka_types_matches(types, &old, exact));
}

/* A validator's last types: none before a module is accepted, and then those of the last one, behind refusals, a failure and the end of the handle
   that the call filled. */
static void try_last(const struct ruthvelka_allocator *allocator) {
    struct ruthvelka_validator validator = NOTHING;
    struct ruthvelka_types types = NOTHING, last = NOTHING;
    expect("a validator", ruthvelka_validator_new(&validator, BESIDE, allocator) == DONE);
    expect("none yet", ruthvelka_validator_types(&validator, &last) == WRONG && is_nothing(&last));
    expect("many", ruthvelka_validator_validate(&validator, many, sizeof many, NULL, 0, NULL, &types) == VALID);
    ruthvelka_types_release(&types);
    expect("many again", ruthvelka_validator_types(&validator, &last) == DONE && ruthvelka_validator_types(&validator, &last) == WRONG);
    try_externs(&last, &of_many);
    expect("rich", ruthvelka_validator_validate(&validator, rich, sizeof rich, NULL, 0, NULL, NULL) == VALID);
    expect("a wrong body", ruthvelka_validator_validate(&validator, wrong_body, sizeof wrong_body, NULL, 0, NULL, NULL) == REFUSED);
    expect("a name twice", ruthvelka_validator_validate(&validator, one_name, sizeof one_name, NULL, 0, NULL, NULL) == REFUSED);
    expect("it is behind them", ruthvelka_validator_types(&validator, &types) == DONE);
    struct ruthvelka_validator moved = validator;
    ruthvelka_types_release(&last);
    expect("a moved one", ruthvelka_validator_types(&moved, &last) == DONE);
    ruthvelka_validator_free(&moved);
    expect("nothing is left", is_nothing(&moved) && ruthvelka_validator_types(&moved, &last) == WRONG);
    try_externs(&types, &of_rich), try_externs(&last, &of_rich), try_told_values(&types);
    ruthvelka_types_release(&types), ruthvelka_types_release(&last);
}

/* Calls on nothing, arrays whose items have another size, null arrays with room, and a signature that lacks a count. */
static void try_wrong(struct ruthvelka_types *types) {
    struct ruthvelka_types nothing = NOTHING, *const empty[] = {NULL, &nothing};
    struct ruthvelka_outcome outcome = {.size = sizeof outcome};
    struct ruthvelka_signature signature = {sizeof signature, 7, 7}, small = {sizeof small - 1, 7, 7};
    begin();
    for (int it = 0; it < 2; it++) {
        outcome.status = DONE, outcome.imports = 3;
        expect("no types", ruthvelka_types_externs(empty[it], &outcome, told.imports, 12, told.exports, 12, told.names, 80) == WRONG
            && outcome.status == WRONG && !outcome.imports && outcome.function == NOWHERE);
        expect("no types for a signature", ruthvelka_types_signature(empty[it], 0, &signature, told.params, 8, told.results, 8) == WRONG);
        expect("no place", ruthvelka_validator_types(NULL, empty[it]) == WRONG);
    }
    expect("a null array", ruthvelka_types_externs(types, &outcome, NULL, 1, told.exports, 12, told.names, 80) == WRONG);
    expect("a null name", ruthvelka_types_externs(types, &outcome, told.imports, 12, told.exports, 12, NULL, 1) == WRONG);
    expect("null values", ruthvelka_types_signature(types, 2, &signature, NULL, 1, told.results, 8) == WRONG);
    expect("a small signature", ruthvelka_types_signature(types, 2, &small, told.params, 8, told.results, 8) == WRONG && small.params == 7);
    told.imports->size--, right.imports->size--;
    expect("small imports", ruthvelka_types_externs(types, &outcome, told.imports, 12, told.exports, 12, told.names, 80) == WRONG);
    told.imports->size++, right.imports->size++, told.exports->size++, right.exports->size++;
    expect("large exports", ruthvelka_types_externs(types, &outcome, told.imports, 12, told.exports, 12, told.names, 80) == WRONG);
    told.params->size--, right.params->size--;
    expect("small parameters", ruthvelka_types_signature(types, 2, &signature, told.params, 8, told.results, 8) == WRONG);
    told.params->size++, right.params->size++, told.results->size = right.results->size = 0;
    expect("small results", ruthvelka_types_signature(types, 2, &signature, told.params, 8, told.results, 8) == WRONG);
    expect("nothing is written", !memcmp(&told, &right, sizeof told) && signature.params == 7 && signature.results == 7);
}

/* Each request of these calls refused in turn: the call says so and writes nothing, and all memory is given back. */
static long live(struct arena *arena) {
    const struct ruthvelka_allocator over = OVER(arena);
    struct ruthvelka_validator validator = NOTHING;
    struct ruthvelka_types types = NOTHING;
    struct ruthvelka_outcome outcome = {.size = sizeof outcome};
    long refusals = 0;
    uint32_t status = ruthvelka_validator_new(&validator, BESIDE, &over);
    refusals += status == NO_MEMORY;
    if (status == DONE) {
        status = ruthvelka_validator_validate(&validator, many, sizeof many, NULL, 0, &outcome, &types);
        expect("a module", (status == VALID || status == NO_MEMORY) && outcome.status == status && is_nothing(&types) == (status != VALID)
            && (outcome.types != 0) == (status == VALID));
        refusals += status == NO_MEMORY;
        if (status == VALID) {
            const long requests = arena->requests;
            try_no_signature(&types, 3);
            expect("a signature wants no memory", arena->requests == requests);
            begin();
            status = ruthvelka_types_externs(&types, &outcome, told.imports, 12, told.exports, 12, told.names, 80);
            expect("imports and exports", (status == DONE || status == NO_MEMORY) && outcome.status == status
                && (outcome.imports != 0) == (status == DONE) && (memcmp(&told, &right, sizeof told) != 0) == (status == DONE) && arena->requests > requests);
            refusals += status == NO_MEMORY;
            ruthvelka_types_release(&types);
            status = ruthvelka_validator_types(&validator, &types);
            expect("the last types", (status == DONE || status == NO_MEMORY) && is_nothing(&types) == (status != DONE));
            refusals += status == NO_MEMORY;
        }
    }
    ruthvelka_types_release(&types), ruthvelka_validator_free(&validator);
    return refusals;
}

static void try_memory(void) {
    struct arena arena = {0, 0, -1};
    expect("nothing is refused", !live(&arena) && !arena.blocks);
    const long all = arena.requests;
    for (long at = 0; at < all; at++) {
        arena = (struct arena){0, 0, at};
        expect("a refusal is told of", live(&arena) > 0);
        expect("all memory is given back", !arena.blocks);
    }
    printf("%ld requests, each refused in turn\n", all);
}

int main(void) {
    struct ruthvelka_validator validator = NOTHING;
    struct ruthvelka_types many_types = NOTHING, rich_types = NOTHING;
    struct arena arena = {0, 0, -1};
    const struct ruthvelka_allocator over = OVER(&arena);
    expect("a validator", ruthvelka_validator_new(&validator, BESIDE, &over) == DONE);
    expect("many", ruthvelka_validator_validate(&validator, many, sizeof many, NULL, 0, NULL, &many_types) == VALID);
    expect("rich", ruthvelka_validator_validate(&validator, rich, sizeof rich, NULL, 0, NULL, &rich_types) == VALID);
    try_externs(&many_types, &of_many), try_externs(&rich_types, &of_rich);
    try_signatures(&many_types, &rich_types);
    try_told_values(&rich_types);
    try_wrong(&many_types);
    ruthvelka_validator_free(&validator), ruthvelka_types_release(&many_types), ruthvelka_types_release(&rich_types);
    expect("all is given back", !arena.blocks);
    try_last(NULL), try_last(&over);
    expect("all is given back of the last types", !arena.blocks);
    try_memory();
    printf("%ld wrong answers of types\n", wrong);
    return wrong != 0;
}
