/* An allocator of the host's own, which refuses each request of a call in turn: the answer is then that memory was refused, or, where only the
   message wanted it, the right one without a message; nothing is written but what the header says; and all memory is given back. */
#include "check.h"

#include <stdlib.h>

#define STANDARD UINT64_C(32703)
static long requests, refuse_at, blocks;

static int is_refused(void) {
    return requests++ == refuse_at;
}

static void *allocate(size_t size) {
    void *block = is_refused() ? NULL : malloc(size);
    blocks += block != NULL;
    return block;
}

static void *resize(void *block, size_t size) {
    return is_refused() ? NULL : realloc(block, size);
}

static void release(void *block) {
    blocks -= block != NULL;
    free(block);
}

/* The answers that a call may give: the last one where no request is refused, the others where one is. */
#define MOST 4
struct answers {
    const char *name;
    struct input in;
    int count;
    struct answer each[MOST];
};

#define NO_MEMORY_HERE {.verdict = 2, .function = NOWHERE}
#define NO_BYTES {.verdict = 1, .function = NOWHERE}
#define ON_MANY {.imports = 8, .exports = 9, .verdict = 0, .function = NOWHERE, .types = 3, .functions = 2, .tables = 4, .memories = 5, \
    .globals = 6, .tags = 7}
#define NOT_LOOKED_AT {.verdict = 3, .function = NOWHERE}
static const struct ruthvelka_report no_memory = NO_MEMORY_HERE;
static const struct ruthvelka_report without_message = {.offset = 32, .verdict = 1, .function = NOWHERE};
static const struct ruthvelka_report list_reports[][2] = {{NO_MEMORY_HERE, NOT_LOOKED_AT}, {ON_MANY, NO_MEMORY_HERE}, {ON_MANY, NO_BYTES}};
static const struct ruthvelka_bytes list[] = {{many, sizeof many}, {NULL, 0}};
/* Whether the second type of the first module is the first one. */
static const struct ruthvelka_query asked[] = {{0, 0, 1, 0, 0, 9}}, unknown[] = {{0, 0, 1, 0, 0, 2}}, denied[] = {{0, 0, 1, 0, 0, 0}};

#define WITH_IDS [TYPES] = {types_of_many, 3}, [FUNCTIONS] = {functions_of_many, 2}
#define WITH_EXTERNS [IMPORTS] = {imports_of_many, 8}, [EXPORTS] = {exports_of_many, 9}, [NAMES] = {names_of_many, sizeof names_of_many - 1}
#define REPORTS_ARE(number) [REPORTS] = {list_reports[number], 2}
static const struct answers on_valid = {"a valid module", {many, sizeof many, NULL, 0, STANDARD}, 2,
    {{2, {[REPORT] = {&no_memory, 1}}}, {0, {[REPORT] = {&report_on_many, 1}, WITH_IDS, WITH_EXTERNS}}}};
static const struct answers on_refused = {"a refused one", {one_name, sizeof one_name, NULL, 0, STANDARD}, 3,
    {{2, {[REPORT] = {&no_memory, 1}}}, {1, {[REPORT] = {&without_message, 1}}},
        {1, {[REPORT] = {&report_on_one_name, 1}, [MESSAGE] = {ONE_NAME, sizeof ONE_NAME - 1}}}}};
static const struct answers on_list = {"a list", {NULL, 0, list, 2, STANDARD}, 4,
    {{2, {{NULL, 0}}}, {0, {REPORTS_ARE(0), [QUERIES] = {unknown, 1}}}, {0, {REPORTS_ARE(1), WITH_IDS, [QUERIES] = {denied, 1}}},
        {0, {REPORTS_ARE(2), WITH_IDS, [QUERIES] = {denied, 1}}}}};

/* Whether this result, and all that was written, are this answer. */
static int is_answer(const struct call *call, const struct answer *answer, const struct rooms *rooms, uint32_t result, const struct written *to) {
    struct written right;
    clear(&right, asked, 1);
    write_right(&right, call, answer, rooms);
    return result == answer->result && !memcmp(to, &right, sizeof right);
}

/* Makes the call with the next refusal, and says whether no request was refused. */
static int is_last(const struct call *call, const struct answers *answers, const struct rooms *rooms) {
    struct written to;
    char what[100];
    int right = 0;
    clear(&to, asked, 1);
    requests = blocks = 0;
    const uint32_t result = call->made(&answers->in, rooms, &to);
    const int last = requests <= refuse_at;
    for (int it = last ? answers->count - 1 : 0; it < answers->count - !last; it++) right |= is_answer(call, &answers->each[it], rooms, result, &to);
    snprintf(what, sizeof what, "%s: %s, where request %ld is refused", call->name, answers->name, refuse_at);
    expect(what, right);
    snprintf(what, sizeof what, "%s: %s: all memory is given back", call->name, answers->name);
    expect(what, !blocks);
    return last;
}

/* Refuses the first request, then the second, up to a call that makes fewer. */
static void try_each(const struct call *call, const struct answers *answers) {
    const struct rooms rooms = {{1, 96, 12, 12, 12, 12, 80, 8, 1}, {0}};
    for (refuse_at = 0; !is_last(call, answers, &rooms) && refuse_at < 10000;) refuse_at++;
    printf("%s: %s: %ld requests, each refused in turn\n", call->name, answers->name, refuse_at);
}

int main(void) {
    ruthvelka_set_allocator(allocate, resize, release);
    for (int it = 0; it < SINGLE_CALLS; it++) try_each(&calls[it], &on_valid), try_each(&calls[it], &on_refused);
    for (int it = SINGLE_CALLS; it < CALLS; it++) try_each(&calls[it], &on_list);
    printf("%ld wrong answers without memory\n", wrong);
    return wrong != 0;
}
