/* Each call that the header names as wrong has RUTHVELKA_BAD_CALL as its result and in its report, and writes nothing else. Besides, questions that
   have no answer. */
#include "check.h"

#define STANDARD UINT64_C(32703)
/* One more than the items of this size that an object can have. */
#define TOO_MANY(size) ((size_t)PTRDIFF_MAX / (size) + 1)

static const struct ruthvelka_bytes list[] = {{many, sizeof many}, {wrong_body, sizeof wrong_body}, {user, sizeof user}};
static const struct input right_input = {many, sizeof many, list, 3, STANDARD};
static const struct ruthvelka_query asked[] = {{0, 0, 0, 0, 0, 9}, {1, 0, 0, 2, 0, 9}};
static const struct ruthvelka_report bad_report = {.verdict = 4, .function = NOWHERE};
static const struct answer bad = {4, {[REPORT] = {&bad_report, 1}}};

/* Makes the wrong call with a report and without one. */
static void expect_bad(const char *what, const struct call *call, const struct input *in, const struct rooms *rooms) {
    struct rooms without = *rooms;
    expect_answer(what, call, in, rooms, &bad, asked, 2);
    without.is_null[REPORT] = 1;
    expect_answer(what, call, in, &without, &bad, asked, 2);
}

/* Each array, one after another, as a null pointer with a room of 1, and with a room that no object can have. */
static void try_arrays(const struct call *call, const struct rooms *right) {
    char what[100];
    for (int it = 0; it < ARRAYS; it++) {
        struct rooms rooms = *right;
        if (!call->has[it] || it == REPORT) continue;
        rooms.of[it] = TOO_MANY(arrays[it].size);
        snprintf(what, sizeof what, "too many %s", arrays[it].name);
        expect_bad(what, call, &right_input, &rooms);
        rooms.of[it] = 1, rooms.is_null[it] = 1;
        snprintf(what, sizeof what, "no %s with a room", arrays[it].name);
        expect_bad(what, call, &right_input, &rooms);
    }
}

/* Each bit that no feature has, alone and beside those of the standard. */
static void try_features(const struct call *call, const struct rooms *rooms) {
    char what[100];
    for (int bit = 29; bit < 64; bit++) {
        struct input in = right_input;
        snprintf(what, sizeof what, "unknown feature %d", bit);
        in.features = UINT64_C(1) << bit;
        expect_bad(what, call, &in, rooms);
        in.features |= STANDARD;
        expect_bad(what, call, &in, rooms);
    }
}

/* Bytes that aren't there, or more than an object can have. */
static void try_bytes(const struct call *call, const struct rooms *rooms) {
    struct input in = right_input;
    in.bytes = NULL, in.length = 1;
    expect_bad("no bytes with a length", call, &in, rooms);
    in.bytes = many, in.length = TOO_MANY(1);
    expect_bad("too many bytes", call, &in, rooms);
}

/* The same of each module of a list, and of the list itself. */
static void try_modules(const struct call *call, const struct rooms *rooms) {
    struct ruthvelka_bytes modules[3];
    struct input in = right_input;
    char what[100];
    for (int it = 0; it < 3; it++) {
        memcpy(modules, list, sizeof list);
        in.modules = modules;
        modules[it] = (struct ruthvelka_bytes){NULL, 1};
        snprintf(what, sizeof what, "no bytes with a length in module %d", it);
        expect_bad(what, call, &in, rooms);
        modules[it] = (struct ruthvelka_bytes){many, TOO_MANY(1)};
        snprintf(what, sizeof what, "too many bytes in module %d", it);
        expect_bad(what, call, &in, rooms);
    }
    in.modules = NULL, in.count = 1;
    expect_bad("no modules with a count", call, &in, rooms);
    in.modules = list, in.count = TOO_MANY(sizeof *list);
    expect_bad("too many modules", call, &in, rooms);
}

/* Questions that can't be answered, whatever their numbers are: only the answer of each is written. */
static void try_questions(void) {
    static const struct ruthvelka_query unanswered[] = {{9, 0, 0, 0, 0, 5}, {0, 0, 3, 0, 0, 5}, {0, 0, 0, 0, 3, 5}, {0, 1, 0, 0, 0, 5},
        {0, 0, 0, UINT32_MAX, 0, 5}, {1, 0, 9, 2, 0, 5}, {1, 0, 0, 2, 3, 5}, {1, UINT32_MAX, UINT32_MAX, 0, 0, 5}};
    for (size_t it = 0; it < sizeof unanswered / sizeof *unanswered; it++) {
        struct ruthvelka_query query = unanswered[it], right = query;
        right.answer = RUTHVELKA_UNKNOWN;
        expect("a question that can't be answered",
            ruthvelka_validate_list_with_queries(list, 3, STANDARD, NULL, 0, &query, 1) == RUTHVELKA_VALID && !memcmp(&query, &right, sizeof query));
    }
}

int main(void) {
    const struct rooms rooms = {{1, 96, 12, 12, 12, 12, 80, 8, 2}, {0}};
    for (int it = 0; it < CALLS; it++) {
        try_arrays(&calls[it], &rooms);
        try_features(&calls[it], &rooms);
        (it < SINGLE_CALLS ? try_bytes : try_modules)(&calls[it], &rooms);
    }
    try_questions();
    printf("%ld wrong answers to wrong calls\n", wrong);
    return wrong != 0;
}
