/* What the calls on side tables pass on to the proved ones, which are made up here: each argument in its place, and no null pointer. */
#include <ruthvelka.h>

#include <stdbool.h>
#include <stdio.h>

static long wrong;

static void expect(const char *what, int is_right) {
    if (is_right) return;
    printf("wrong: %s\n", what);
    wrong++;
}

/* As c/side_tables.c has it. */
struct ruthvelka_proved_table {
    uint64_t entries;
    uint32_t first, end, operands, locals;
};
struct ruthvelka_proved_totals {
    uint64_t tables, entries;
};

/* What was passed on last, and what is answered. */
static struct passed {
    const uint8_t *bytes;
    size_t length;
    uint64_t features;
    uint32_t function;
    uint8_t *message;
    size_t message_room;
    struct ruthvelka_side_entry *entries;
    size_t entry_room;
    int calls;
    struct ruthvelka_body_table *tables;
    size_t table_room;
} passed;
static uint32_t answer;

uint32_t ruthvelka_proved_side_table(const uint8_t *bytes, size_t length, uint64_t features, uint32_t function, uint8_t *message, size_t message_room,
    struct ruthvelka_report *report, struct ruthvelka_proved_table *table, struct ruthvelka_side_entry *entries, size_t entry_room) {
    passed = (struct passed){bytes, length, features, function, message, message_room, entries, entry_room, passed.calls + 1, NULL, 0};
    report->offset = 9;
    if (answer == RUTHVELKA_STATUS_DONE) *table = (struct ruthvelka_proved_table){1, 2, 3, 4, 5};
    return answer;
}

uint32_t ruthvelka_proved_side_tables(const uint8_t *bytes, size_t length, uint64_t features, uint8_t *message, size_t message_room,
    struct ruthvelka_report *report, struct ruthvelka_proved_totals *totals, struct ruthvelka_body_table *tables, size_t table_room,
    struct ruthvelka_side_entry *entries, size_t entry_room) {
    passed = (struct passed){bytes, length, features, 0, message, message_room, entries, entry_room, passed.calls + 1, tables, table_room};
    report->offset = 9;
    if (answer == RUTHVELKA_STATUS_DONE) *totals = (struct ruthvelka_proved_totals){1, 2};
    return answer;
}

uint64_t ruthvelka_proved_features(void) {
    return 3;
}

bool ruthvelka_may_be_told(const struct ruthvelka_outcome *it) {
    return !it || it->size > 7;
}

uint32_t ruthvelka_tell(struct ruthvelka_outcome *to, uint32_t status, const struct ruthvelka_report *report) {
    if (to) to->status = status, to->offset = report->offset;
    return status;
}

uint32_t ruthvelka_tell_nothing(struct ruthvelka_outcome *to, uint32_t status) {
    if (to) to->status = status, to->offset = 0;
    return status;
}

/* Each answer, told as it is, and a table only where it is there. */
static void try_answers(void) {
    static const uint32_t answers[] = {RUTHVELKA_STATUS_DONE, RUTHVELKA_STATUS_REFUSED, RUTHVELKA_STATUS_NO_MEMORY, RUTHVELKA_STATUS_WRONG};
    const uint8_t bytes[2] = {0, 0};
    char message[3];
    struct ruthvelka_side_entry entries[4];
    for (int i = 0; i < 4; i++) {
        struct ruthvelka_outcome outcome = {.size = sizeof outcome, .offset = 7};
        struct ruthvelka_side_table table = {sizeof table, sizeof *entries, 7, 7, 7, 7, 7};
        const int is_done = i == 0, has_place = i < 2;
        answer = answers[i], passed.calls = 0;
        expect("the answer", ruthvelka_side_table(bytes, 2, 3, 5, message, 3, &outcome, &table, entries, 4) == answer && outcome.status == answer);
        expect("its place", outcome.offset == (has_place ? 9 : 0));
        expect("arguments", passed.calls == 1 && passed.bytes == bytes && passed.length == 2 && passed.features == 3 && passed.function == 5
            && passed.message == (uint8_t *)message && passed.message_room == 3 && passed.entries == entries && passed.entry_room == 4);
        expect("the table", table.entries == (is_done ? 1 : 7) && table.first == (is_done ? 2 : 7) && table.end == (is_done ? 3 : 7)
            && table.operands == (is_done ? 4 : 7) && table.locals == (is_done ? 5 : 7));
    }
}

/* The same of the call on the tables of all bodies. */
static void try_all_answers(void) {
    static const uint32_t answers[] = {RUTHVELKA_STATUS_DONE, RUTHVELKA_STATUS_REFUSED, RUTHVELKA_STATUS_NO_MEMORY, RUTHVELKA_STATUS_WRONG};
    const uint8_t bytes[2] = {0, 0};
    char message[3];
    struct ruthvelka_body_table tables[5];
    struct ruthvelka_side_entry entries[4];
    for (int i = 0; i < 4; i++) {
        struct ruthvelka_outcome outcome = {.size = sizeof outcome, .offset = 7};
        struct ruthvelka_side_tables totals = {sizeof totals, sizeof *tables, sizeof *entries, 7, 7};
        const int is_done = i == 0, has_place = i < 2;
        answer = answers[i], passed.calls = 0;
        expect("the answer of all", ruthvelka_side_tables(bytes, 2, 3, message, 3, &outcome, &totals, tables, 5, entries, 4) == answer
            && outcome.status == answer);
        expect("the place of all", outcome.offset == (has_place ? 9 : 0));
        expect("arguments of all", passed.calls == 1 && passed.bytes == bytes && passed.length == 2 && passed.features == 3
            && passed.message == (uint8_t *)message && passed.message_room == 3 && passed.tables == tables && passed.table_room == 5
            && passed.entries == entries && passed.entry_room == 4);
        expect("the totals", totals.tables == (is_done ? 1 : 7) && totals.entries == (is_done ? 2 : 7));
    }
}

int main(void) {
    try_answers(), try_all_answers();
    answer = RUTHVELKA_STATUS_DONE, passed.calls = 0;
    expect("nothing given", ruthvelka_side_table(NULL, 0, 0, 0, NULL, 0, NULL, NULL, NULL, 0) == RUTHVELKA_STATUS_DONE && passed.calls == 1);
    expect("no null pointer", passed.bytes && passed.message && passed.entries && !passed.length && !passed.message_room && !passed.entry_room);
    expect("an unknown feature", ruthvelka_side_table(NULL, 0, 4, 0, NULL, 0, NULL, NULL, NULL, 0) == RUTHVELKA_STATUS_WRONG && passed.calls == 1);
    passed = (struct passed){.calls = 0};
    expect("nothing given for all", ruthvelka_side_tables(NULL, 0, 0, NULL, 0, NULL, NULL, NULL, 0, NULL, 0) == RUTHVELKA_STATUS_DONE && passed.calls == 1);
    expect("no null pointer for all", passed.bytes && passed.message && passed.tables && passed.entries && !passed.length && !passed.message_room
        && !passed.table_room && !passed.entry_room);
    expect("an unknown feature for all", ruthvelka_side_tables(NULL, 0, 4, NULL, 0, NULL, NULL, NULL, 0, NULL, 0) == RUTHVELKA_STATUS_WRONG
        && passed.calls == 1);
    return wrong != 0;
}
