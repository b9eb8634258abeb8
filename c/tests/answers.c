/* Every field of every answer, on modules whose counts and ids all differ, with rooms of 0, of one less, of just enough and of one more for each
   array, and with null pointers for arrays of no items. Nothing behind a room may change, and nothing before it. */
#include "check.h"

/* What each call says of a module under these features. */
struct facts {
    const char *name;
    struct input in;
    struct answer right;
    const struct ruthvelka_query *asked;
};

#define ITEMS(array) {array, sizeof array / sizeof *array}
#define TEXT(text) {text, sizeof text - 1}

static const uint32_t types_of_user[] = {0, 1, 2, 3, 4}, functions_of_user[] = {4, 1, 0, 3};
/* With custom descriptors, a function that is defined here is exported exactly. */
static const struct ruthvelka_extern imports_of_user[] = {EXTERN(0, 1, 1, 1, 0, 4), EXTERN(2, 1, 3, 5, 0, 1), EXTERN(8, 1, 9, 2, 2, NO_ID)};
static const struct ruthvelka_extern exports_of_user[] = {EXTERN(11, 0, 11, 1, 32, 3)};
static const char names_of_user[] = "axafirstam0h";

#define ALL_FEATURES ((RUTHVELKA_COMPACT_IMPORTS << 1) - 1 - RUTHVELKA_CRATE_LIMITS)
#define STANDARD UINT64_C(32703)
static const struct ruthvelka_report report_on_one_memory = {.verdict = 0, .function = NOWHERE, .memories = 1};
static const struct facts modules[] = {
    {"many of all", {many, sizeof many, NULL, 0, STANDARD}, {0, {[REPORT] = {&report_on_many, 1}, [TYPES] = ITEMS(types_of_many),
        [FUNCTIONS] = ITEMS(functions_of_many), [IMPORTS] = ITEMS(imports_of_many), [EXPORTS] = ITEMS(exports_of_many),
        [NAMES] = TEXT(names_of_many)}}, NULL},
    {"all features", {user, sizeof user, NULL, 0, ALL_FEATURES}, {0, {[REPORT] = {&report_on_user, 1}, [TYPES] = ITEMS(types_of_user),
        [FUNCTIONS] = ITEMS(functions_of_user), [IMPORTS] = ITEMS(imports_of_user), [EXPORTS] = ITEMS(exports_of_user),
        [NAMES] = TEXT(names_of_user)}}, NULL},
    {"a wrong body", {wrong_body, sizeof wrong_body, NULL, 0, STANDARD},
        {1, {[REPORT] = {&report_on_wrong_body, 1}, [MESSAGE] = TEXT(WRONG_BODY)}}, NULL},
    {"a missing feature", {small_pages, sizeof small_pages, NULL, 0, STANDARD},
        {1, {[REPORT] = {&report_on_small_pages, 1}, [MESSAGE] = TEXT(SMALL_PAGES)}}, NULL},
    {"a feature", {small_pages, sizeof small_pages, NULL, 0, STANDARD | 32768}, {0, {[REPORT] = {&report_on_one_memory, 1}}}, NULL},
    {"a name in a message", {one_name, sizeof one_name, NULL, 0, STANDARD},
        {1, {[REPORT] = {&report_on_one_name, 1}, [MESSAGE] = TEXT(ONE_NAME)}}, NULL}};

/* Lists: a valid module, one with a wrong body, a valid one, one that ends the list, and one behind it. The ids are those of the valid ones. */
#define LENT(array) {array, sizeof array}
static const struct ruthvelka_bytes five[] = {LENT(many), LENT(wrong_body), LENT(user), LENT(small_pages), LENT(user)};
static const struct ruthvelka_bytes with_null[] = {LENT(many), LENT(wrong_body), LENT(user), {NULL, 0}, LENT(user)};
static const struct ruthvelka_bytes one[] = {LENT(small_pages)};
#define ON_FIRST_THREE {.imports = 8, .exports = 9, .verdict = 0, .function = NOWHERE, .types = 3, .functions = 2, .tables = 4, .memories = 5, \
    .globals = 6, .tags = 7}, {.offset = 34, .verdict = 1, .function = 1}, \
    {.imports = 3, .exports = 1, .verdict = 0, .function = NOWHERE, .types = 5, .functions = 4, .memories = 1}
#define NOT_LOOKED_AT {.verdict = 3, .function = NOWHERE}
static const struct ruthvelka_report reports_on_five[] = {ON_FIRST_THREE,
    {.offset = 11, .missing_features = 32768, .verdict = 1, .function = NOWHERE}, NOT_LOOKED_AT};
static const struct ruthvelka_report reports_with_null[] = {ON_FIRST_THREE, {.verdict = 1, .function = NOWHERE}, NOT_LOOKED_AT};
static const uint32_t types_of_five[] = {0, 1, 2, 2, 3, 4, 5, 0}, functions_of_five[] = {2, 0, 0, 3, 2, 5};

/* Questions about those lists, and the answers: a type and the one above it, both ways; exports of `many` for imports of `user`; a module that is
   refused; one id in both modules; and one that was not looked at. */
#define QUERY(kind_number, module_1, number_1, module_2, number_2, said) {.kind = kind_number, .first_module = module_1, .first = number_1, \
    .second_module = module_2, .second = number_2, .answer = said}
#define QUERIES_WITH(no, yes, unknown) {QUERY(0, 2, 3, 2, 2, yes), QUERY(0, 2, 2, 2, 3, no), QUERY(1, 0, 0, 2, 0, yes), QUERY(1, 0, 1, 2, 1, no), \
    QUERY(0, 1, 0, 0, 0, unknown), QUERY(1, 0, 7, 2, 2, yes), QUERY(0, 0, 2, 2, 0, yes), QUERY(0, 4, 0, 2, 0, unknown), QUERY(1, 0, 0, 2, 2, no)}
static const struct ruthvelka_query asked[] = QUERIES_WITH(9, 9, 9), answered[] = QUERIES_WITH(0, 1, 2);
#define IDS_AND_ANSWERS [TYPES] = ITEMS(types_of_five), [FUNCTIONS] = ITEMS(functions_of_five), [QUERIES] = ITEMS(answered)
static const struct facts lists[] = {
    {"five modules", {NULL, 0, five, 5, STANDARD}, {0, {[REPORTS] = ITEMS(reports_on_five), IDS_AND_ANSWERS}}, asked},
    {"a null pointer among them", {NULL, 0, with_null, 5, STANDARD}, {0, {[REPORTS] = ITEMS(reports_with_null), IDS_AND_ANSWERS}}, asked},
    {"a feature", {NULL, 0, one, 1, STANDARD | 32768}, {0, {[REPORTS] = {&report_on_one_memory, 1}}}, NULL},
    {"no modules", {NULL, 0, NULL, 0, STANDARD}, {0, {{NULL, 0}}}, NULL},
    {"no modules at a place", {NULL, 0, five, 0, STANDARD}, {0, {{NULL, 0}}}, NULL}};

/* Makes the call with these rooms, and says in a mistake which one of them is tried. */
static void try_call(const struct call *call, const struct facts *facts, const struct rooms *rooms, enum array tried) {
    char what[100];
    snprintf(what, sizeof what, "%s, with %s for %zu in %s", facts->name, rooms->is_null[tried] ? "null" : "room", rooms->of[tried],
        arrays[tried].name);
    expect_answer(what, call, &facts->in, rooms, &facts->right, facts->asked, facts->right.of[QUERIES].count);
}

/* Room for one more than there are in each array, but for questions, all of which are answered. */
static struct rooms enough(const struct facts *facts) {
    struct rooms rooms;
    for (int it = 0; it < ARRAYS; it++) rooms.of[it] = facts->right.of[it].count + (it != QUERIES), rooms.is_null[it] = 0;
    rooms.of[REPORT] = 1;
    return rooms;
}

/* Tries each room of one array, where all others have enough. */
static void try_rooms(const struct call *call, const struct facts *facts, enum array tried) {
    const size_t count = facts->right.of[tried].count, tries[] = {0, count ? count - 1 : 0, count, count + (tried != QUERIES)};
    struct rooms rooms = enough(facts);
    for (size_t it = 0; it < sizeof tries / sizeof *tries; it++) rooms.of[tried] = tries[it], try_call(call, facts, &rooms, tried);
}

/* Tries a null pointer for one array, or for the report. */
static void try_null(const struct call *call, const struct facts *facts, enum array tried) {
    struct rooms rooms = enough(facts);
    rooms.of[tried] = tried == REPORT, rooms.is_null[tried] = 1;
    try_call(call, facts, &rooms, tried);
}

static void try_arrays(const struct call *call, const struct facts *facts) {
    for (int it = 0; it < ARRAYS; it++) {
        if (call->has[it] && it != REPORT) try_rooms(call, facts, (enum array)it);
        if (call->has[it]) try_null(call, facts, (enum array)it);
    }
}

static void try_modules(const struct call *call) {
    for (size_t it = 0; it < sizeof modules / sizeof *modules; it++) try_arrays(call, &modules[it]);
}

static void try_lists(const struct call *call) {
    for (size_t it = 0; it < sizeof lists / sizeof *lists; it++) try_arrays(call, &lists[it]);
}

int main(void) {
    for (int it = 0; it < CALLS; it++) (it < SINGLE_CALLS ? try_modules : try_lists)(&calls[it]);
    printf("%ld wrong answers\n", wrong);
    return wrong != 0;
}
