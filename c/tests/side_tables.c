/* The side tables of a module's two bodies, each by itself and both by one call, with each room, and nothing written beyond it; wrong calls; a module that
   is refused; and where each request for memory is refused in turn. The entries were written from the bytes of the module by hand. */
#include "handles.h"

/* An import and two functions, all of them from an i32 to an i32. */
static const uint8_t branching[] = {0x00, 0x61, 0x73, 0x6d, 0x01, 0x00, 0x00, 0x00, 0x01, 0x06, 0x01, 0x60, 0x01, 0x7f, 0x01, 0x7f,
    0x02, 0x07, 0x01, 0x01, 'e', 0x01, 'f', 0x00, 0x00, 0x03, 0x03, 0x02, 0x00, 0x00, 0x0a, 0x2a, 0x02,
    /* function 1, from 34 on: a local of type i64; from 37 on a loop with a br_if back; and from 50 on an if, in which a br leaves the body with one
       of three operands, with an else */
    0x1a, 0x01, 0x01, 0x7e, 0x03, 0x40, 0x20, 0x00, 0x0d, 0x00, 0x0b, 0x20, 0x00, 0x41, 0x05, 0x20, 0x00, 0x04, 0x40, 0x41, 0x07, 0x0c, 0x01, 0x05,
    0x0b, 0x6a, 0x0b,
    /* function 2, from 61 on: no locals; from 62 on a block with a br_table to its end and to the body's */
    0x0d, 0x00, 0x02, 0x7f, 0x20, 0x00, 0x20, 0x00, 0x0e, 0x01, 0x00, 0x01, 0x0b, 0x0b};

#define MOST 4
static const struct table {
    uint32_t function, first, end, operands, locals, count;
    struct ruthvelka_side_entry entries[MOST];
} tables[] = {{1, 37, 60, 3, 2, 4, {{41, 39, 0, 0, 0}, {50, 57, 4, 0, 0}, {54, 60, 4, 1, 2}, {56, 58, 4, 0, 0}}},
    {2, 62, 74, 2, 1, 2, {{68, 73, 2, 1, 0}, {68, 74, 2, 1, 0}}}};

/* What a call writes, with guards around it. */
static struct written {
    uint8_t guard_0[64];
    struct ruthvelka_side_table table;
    uint8_t guard_1[64];
    struct ruthvelka_side_entry entries[8];
    uint8_t guard_2[64];
    char message[96];
    uint8_t guard_3[64];
    struct ruthvelka_side_tables totals;
    uint8_t guard_4[64];
    struct ruthvelka_body_table tables[4];
    uint8_t guard_5[64];
} told, right;

static void begin(void) {
    memset(&told, 7, sizeof told);
    told.table.size = sizeof told.table, told.table.entry_size = sizeof *told.entries;
    told.totals.size = sizeof told.totals, told.totals.table_size = sizeof *told.tables, told.totals.entry_size = sizeof *told.entries;
    right = told;
}

static int is_right(void) {
    return !memcmp(&told, &right, sizeof told);
}

/* The table that is right, with this room. */
static void fill(const struct table *it, size_t room) {
    right.table.entries = it->count, right.table.first = it->first, right.table.end = it->end;
    right.table.operands = it->operands, right.table.locals = it->locals;
    memcpy(right.entries, it->entries, (room < it->count ? room : it->count) * sizeof *it->entries);
}

static uint32_t ask(uint32_t function, struct ruthvelka_outcome *outcome, size_t room) {
    return ruthvelka_side_table(branching, sizeof branching, STANDARD, function, told.message, sizeof told.message, outcome, &told.table, told.entries,
        room);
}

static void try_rooms(const struct table *it) {
    for (size_t room = 0; room <= 6; room++) {
        struct ruthvelka_outcome outcome = {.size = sizeof outcome};
        begin(), fill(it, room);
        expect("a table", ask(it->function, &outcome, room) == DONE && is_right());
        expect("its module", outcome.status == DONE && outcome.functions == 3 && outcome.types == 1 && outcome.imports == 1
            && outcome.function == RUTHVELKA_NO_FUNCTION && !outcome.offset && !outcome.message_length && !outcome.missing_features);
    }
    begin(), fill(it, 0);
    expect("no entries and no outcome", ruthvelka_side_table(branching, sizeof branching, STANDARD, it->function, NULL, 0, NULL, &told.table, NULL, 0) == DONE
        && is_right());
    expect("nothing but the status", ruthvelka_side_table(branching, sizeof branching, STANDARD, it->function, NULL, 0, NULL, NULL, NULL, 0) == DONE);
    begin(), fill(it, 6);
    told.table.size = right.table.size = sizeof told.table + 8;
    expect("a larger table", ask(it->function, NULL, 6) == DONE && is_right());
}

/* A wrong call, which writes nothing but its outcome. */
static void expect_wrong(const char *what, const uint8_t *bytes, size_t length, uint64_t features, uint32_t function, char *message, size_t message_room,
    struct ruthvelka_side_table *table, struct ruthvelka_side_entry *entries, size_t room) {
    struct ruthvelka_outcome outcome = {.size = sizeof outcome, .offset = 7, .types = 7, .message_length = 7, .function = 7};
    right = told;
    expect(what, ruthvelka_side_table(bytes, length, features, function, message, message_room, &outcome, table, entries, room) == WRONG && is_right());
    expect("its outcome", outcome.status == WRONG && !outcome.offset && !outcome.types && !outcome.message_length
        && outcome.function == RUTHVELKA_NO_FUNCTION);
}

static void try_wrong_calls(void) {
    struct ruthvelka_outcome small = {.size = offsetof(struct ruthvelka_outcome, offset) - 1, .status = 7};
    const size_t too_many = (size_t)PTRDIFF_MAX / sizeof *told.entries + 1;
    begin();
    expect_wrong("an imported function", branching, sizeof branching, STANDARD, 0, NULL, 0, &told.table, told.entries, 6);
    expect_wrong("no such function", branching, sizeof branching, STANDARD, 3, NULL, 0, &told.table, told.entries, 6);
    expect_wrong("no bytes", NULL, 1, STANDARD, 1, NULL, 0, &told.table, told.entries, 6);
    expect_wrong("too many bytes", branching, (size_t)PTRDIFF_MAX + 1, STANDARD, 1, NULL, 0, &told.table, told.entries, 6);
    expect_wrong("an unknown feature", branching, sizeof branching, UINT64_C(1) << 40, 1, NULL, 0, &told.table, told.entries, 6);
    expect_wrong("no message", branching, sizeof branching, STANDARD, 1, NULL, 1, &told.table, told.entries, 6);
    expect_wrong("no entries", branching, sizeof branching, STANDARD, 1, NULL, 0, &told.table, NULL, 1);
    expect_wrong("too many entries", branching, sizeof branching, STANDARD, 1, NULL, 0, &told.table, told.entries, too_many);
    expect_wrong("entries and no table", branching, sizeof branching, STANDARD, 1, NULL, 0, NULL, told.entries, 1);
    told.table.size = sizeof told.table - 1;
    expect_wrong("a small table", branching, sizeof branching, STANDARD, 1, NULL, 0, &told.table, told.entries, 6);
    expect_wrong("a small table and no entries", branching, sizeof branching, STANDARD, 1, NULL, 0, &told.table, NULL, 0);
    begin();
    told.table.entry_size = sizeof *told.entries + 4;
    expect_wrong("other entries", branching, sizeof branching, STANDARD, 1, NULL, 0, &told.table, told.entries, 6);
    begin();
    expect("a small outcome", ask(1, &small, 6) == WRONG && is_right() && small.status == 7);
    expect_wrong("nothing at all", NULL, 0, UINT64_C(1) << 63, 0, NULL, 0, NULL, NULL, 0);
}

/* Modules that are refused: no bytes, and one whose second body has no result, so that no body of it has a table. */
static void try_refused(void) {
    uint8_t bytes[sizeof branching];
    struct ruthvelka_outcome outcome = {.size = sizeof outcome};
    begin();
    expect("an empty module", ruthvelka_side_table(NULL, 0, STANDARD, 1, NULL, 0, &outcome, &told.table, told.entries, 6) == REFUSED && is_right());
    memcpy(bytes, branching, sizeof bytes);
    bytes[64] = bytes[66] = bytes[65] = bytes[67] = 0x01;
    for (uint32_t function = 0; function < 4; function++) {
        begin();
        expect("a wrong body", ruthvelka_side_table(bytes, sizeof bytes, STANDARD, function, told.message, sizeof told.message, &outcome, &told.table,
            told.entries, 6) == REFUSED);
        expect("where it is", outcome.status == REFUSED && outcome.function == 2 && outcome.offset == 68 && outcome.message_length);
        expect("its message", outcome.message_length <= sizeof told.message && told.message[0] != 7);
        memcpy(right.message, told.message, sizeof told.message);
        expect("nothing else", is_right());
    }
}

/* Both tables, with these rooms. */
static void fill_all(size_t table_room, size_t entry_room) {
    uint64_t start = 0;
    for (size_t i = 0; i < 2; i++) {
        const struct table *it = &tables[i];
        if (i < table_room)
            right.tables[i] = (struct ruthvelka_body_table){start, it->count, it->first, it->end, it->operands, it->locals, it->function, 0};
        for (size_t k = 0; k < it->count; k++)
            if (start + k < entry_room) right.entries[start + k] = it->entries[k];
        start += it->count;
    }
    right.totals.tables = 2, right.totals.entries = start;
}

static uint32_t ask_all(struct ruthvelka_outcome *outcome, size_t table_room, size_t entry_room) {
    return ruthvelka_side_tables(branching, sizeof branching, STANDARD, told.message, sizeof told.message, outcome, &told.totals, told.tables, table_room,
        told.entries, entry_room);
}

static void try_all_rooms(void) {
    for (size_t table_room = 0; table_room <= 4; table_room++)
        for (size_t entry_room = 0; entry_room <= 8; entry_room++) {
            struct ruthvelka_outcome outcome = {.size = sizeof outcome};
            begin(), fill_all(table_room, entry_room);
            expect("all tables", ask_all(&outcome, table_room, entry_room) == DONE && is_right());
            expect("the module of all", outcome.status == DONE && outcome.functions == 3 && outcome.types == 1 && outcome.imports == 1
                && outcome.function == RUTHVELKA_NO_FUNCTION && !outcome.offset && !outcome.message_length && !outcome.missing_features);
        }
    begin(), fill_all(0, 0);
    expect("no tables, no entries and no outcome", ruthvelka_side_tables(branching, sizeof branching, STANDARD, NULL, 0, NULL, &told.totals, NULL, 0, NULL,
        0) == DONE && is_right());
    expect("nothing but the status of all", ruthvelka_side_tables(branching, sizeof branching, STANDARD, NULL, 0, NULL, NULL, NULL, 0, NULL, 0) == DONE);
    begin(), fill_all(4, 8);
    told.totals.size = right.totals.size = sizeof told.totals + 8;
    expect("larger totals", ask_all(NULL, 4, 8) == DONE && is_right());
    /* a module without bodies, and none with room for more than it has */
    begin();
    right.totals.tables = right.totals.entries = 0;
    expect("no bodies", ruthvelka_side_tables(branching, 8, STANDARD, NULL, 0, NULL, &told.totals, told.tables, 4, told.entries, 8) == DONE && is_right());
}

/* A wrong call, which writes nothing but its outcome. */
static void expect_all_wrong(const char *what, const uint8_t *bytes, size_t length, uint64_t features, char *message, size_t message_room,
    struct ruthvelka_side_tables *totals, struct ruthvelka_body_table *to, size_t table_room, struct ruthvelka_side_entry *entries, size_t entry_room) {
    struct ruthvelka_outcome outcome = {.size = sizeof outcome, .offset = 7, .types = 7, .message_length = 7, .function = 7};
    right = told;
    expect(what, ruthvelka_side_tables(bytes, length, features, message, message_room, &outcome, totals, to, table_room, entries, entry_room) == WRONG
        && is_right());
    expect("the outcome of all", outcome.status == WRONG && !outcome.offset && !outcome.types && !outcome.message_length
        && outcome.function == RUTHVELKA_NO_FUNCTION);
}

static void try_all_wrong_calls(void) {
    struct ruthvelka_outcome small = {.size = offsetof(struct ruthvelka_outcome, offset) - 1, .status = 7};
    const size_t too_many_tables = (size_t)PTRDIFF_MAX / sizeof *told.tables + 1, too_many = (size_t)PTRDIFF_MAX / sizeof *told.entries + 1;
    begin();
    expect_all_wrong("all of no bytes", NULL, 1, STANDARD, NULL, 0, &told.totals, told.tables, 4, told.entries, 8);
    expect_all_wrong("all of too many bytes", branching, (size_t)PTRDIFF_MAX + 1, STANDARD, NULL, 0, &told.totals, told.tables, 4, told.entries, 8);
    expect_all_wrong("all with an unknown feature", branching, sizeof branching, UINT64_C(1) << 40, NULL, 0, &told.totals, told.tables, 4, told.entries, 8);
    expect_all_wrong("all with no message", branching, sizeof branching, STANDARD, NULL, 1, &told.totals, told.tables, 4, told.entries, 8);
    expect_all_wrong("no tables", branching, sizeof branching, STANDARD, NULL, 0, &told.totals, NULL, 1, told.entries, 8);
    expect_all_wrong("too many tables", branching, sizeof branching, STANDARD, NULL, 0, &told.totals, told.tables, too_many_tables, told.entries, 8);
    expect_all_wrong("no entries of all", branching, sizeof branching, STANDARD, NULL, 0, &told.totals, told.tables, 4, NULL, 1);
    expect_all_wrong("too many entries of all", branching, sizeof branching, STANDARD, NULL, 0, &told.totals, told.tables, 4, told.entries, too_many);
    expect_all_wrong("tables and no totals", branching, sizeof branching, STANDARD, NULL, 0, NULL, told.tables, 1, NULL, 0);
    expect_all_wrong("entries and no totals", branching, sizeof branching, STANDARD, NULL, 0, NULL, NULL, 0, told.entries, 1);
    told.totals.size = sizeof told.totals - 1;
    expect_all_wrong("small totals", branching, sizeof branching, STANDARD, NULL, 0, &told.totals, told.tables, 4, told.entries, 8);
    expect_all_wrong("small totals and nothing else", branching, sizeof branching, STANDARD, NULL, 0, &told.totals, NULL, 0, NULL, 0);
    begin();
    told.totals.table_size = sizeof *told.tables + 8;
    expect_all_wrong("other tables", branching, sizeof branching, STANDARD, NULL, 0, &told.totals, told.tables, 4, told.entries, 8);
    begin();
    told.totals.entry_size = sizeof *told.entries + 4;
    expect_all_wrong("other entries of all", branching, sizeof branching, STANDARD, NULL, 0, &told.totals, told.tables, 4, told.entries, 8);
    begin();
    expect("a small outcome of all", ask_all(&small, 4, 8) == WRONG && is_right() && small.status == 7);
    expect_all_wrong("all of nothing at all", NULL, 0, UINT64_C(1) << 63, NULL, 0, NULL, NULL, 0, NULL, 0);
}

/* Modules that are refused tell the same as by ruthvelka_check: no bytes, one whose second body has no result, and one whose section behind the code is
   wrong besides, which is told in place of the body. */
static void try_all_refused(void) {
    uint8_t bytes[sizeof branching + 2];
    struct ruthvelka_outcome outcome = {.size = sizeof outcome}, checked = {.size = sizeof checked};
    begin();
    expect("all of an empty module", ruthvelka_side_tables(NULL, 0, STANDARD, NULL, 0, &outcome, &told.totals, told.tables, 4, told.entries, 8) == REFUSED
        && is_right());
    memcpy(bytes, branching, sizeof branching);
    bytes[64] = bytes[66] = bytes[65] = bytes[67] = 0x01;
    bytes[sizeof branching] = 0x0c, bytes[sizeof branching + 1] = 0x00;
    for (size_t more = 0; more <= 2; more += 2) {
        begin();
        expect("all with a wrong body", ruthvelka_side_tables(bytes, sizeof branching + more, STANDARD, told.message, sizeof told.message, &outcome,
            &told.totals, told.tables, 4, told.entries, 8) == REFUSED);
        expect("as it is checked", ruthvelka_check(bytes, sizeof branching + more, STANDARD, right.message, sizeof right.message, &checked) == REFUSED);
        checked.status = outcome.status;
        expect("where the module is wrong", !memcmp(&outcome, &checked, sizeof outcome) && outcome.status == REFUSED && outcome.message_length);
        expect("which fault", more ? outcome.function == RUTHVELKA_NO_FUNCTION : outcome.function == 2 && outcome.offset == 68);
        expect("its message and nothing else", is_right() && told.message[0] != 7);
    }
}

static struct arena arena;

static void *take_here(size_t size) {
    return take(&arena, size);
}

static void *resize_here(void *block, size_t size) {
    return resize(&arena, block, size);
}

static void give_back_here(void *block) {
    give_back(&arena, block);
}

/* Each request is refused in turn, until none is: the answer is that, or the right one where the call went on without. */
static void try_memory(void) {
    uint32_t status = NO_MEMORY;
    long refusals = 0;
    ruthvelka_set_allocator(take_here, resize_here, give_back_here);
    for (long refused = 0; arena.requests >= refused; refused++) {
        struct ruthvelka_outcome outcome = {.size = sizeof outcome};
        arena = (struct arena){0, 0, refused};
        begin();
        status = ask(1, &outcome, 6);
        if (status == DONE) fill(&tables[0], 6);
        expect("memory, or a table", (status == DONE || status == NO_MEMORY) && outcome.status == status && is_right());
        expect("all is given back", !arena.blocks);
        refusals += status == NO_MEMORY;
    }
    expect("memory is wanted, and enough", status == DONE && refusals > 50);
    ruthvelka_set_allocator(NULL, NULL, NULL);
}

/* The same of all tables. */
static void try_all_memory(void) {
    uint32_t status = NO_MEMORY;
    long refusals = 0;
    ruthvelka_set_allocator(take_here, resize_here, give_back_here);
    arena.requests = 0;
    for (long refused = 0; arena.requests >= refused; refused++) {
        struct ruthvelka_outcome outcome = {.size = sizeof outcome};
        arena = (struct arena){0, 0, refused};
        begin();
        status = ask_all(&outcome, 4, 8);
        if (status == DONE) fill_all(4, 8);
        expect("memory, or all tables", (status == DONE || status == NO_MEMORY) && outcome.status == status && is_right());
        expect("all memory is given back", !arena.blocks);
        refusals += status == NO_MEMORY;
    }
    expect("memory is wanted for all, and enough", status == DONE && refusals > 25);
    ruthvelka_set_allocator(NULL, NULL, NULL);
}

int main(void) {
    try_rooms(&tables[0]), try_rooms(&tables[1]);
    try_wrong_calls();
    try_refused();
    try_memory();
    try_all_rooms(), try_all_wrong_calls(), try_all_refused(), try_all_memory();
    return wrong != 0;
}
