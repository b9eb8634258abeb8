/* The calls of ruthvelka.h on side tables, over the proved ones, which want no null pointer, no length past PTRDIFF_MAX bytes and no unknown feature. */
#include "internal.h"

#include <string.h>

/* What is told of a table, as the proved part has it. */
struct ruthvelka_proved_table {
    uint64_t entries;
    uint32_t first, end, operands, locals;
};

/* What is told of all tables of a module, as the proved part has it. */
struct ruthvelka_proved_totals {
    uint64_t tables, entries;
};

/* The proved calls (crates/ruthvelka_c, side_tables.rt). */
uint32_t ruthvelka_proved_side_table(const uint8_t *bytes, size_t length, uint64_t features, uint32_t function, uint8_t *message, size_t message_room,
    struct ruthvelka_report *report, struct ruthvelka_proved_table *table, struct ruthvelka_side_entry *entries, size_t entry_room);
uint32_t ruthvelka_proved_side_tables(const uint8_t *bytes, size_t length, uint64_t features, uint8_t *message, size_t message_room,
    struct ruthvelka_report *report, struct ruthvelka_proved_totals *totals, struct ruthvelka_body_table *tables, size_t table_room,
    struct ruthvelka_side_entry *entries, size_t entry_room);

/* What stands where a caller gave a null pointer with a count of 0. Nothing is ever read or written there. */
static union {
    uint8_t bytes[1];
    struct ruthvelka_side_entry entries[1];
    struct ruthvelka_body_table tables[1];
} none;

/* Whether a call may be given these. */
static bool are_given(const uint8_t *bytes, size_t length, uint64_t features, const char *message, size_t message_room,
    const struct ruthvelka_outcome *outcome) {
    return are_known(features) && ruthvelka_may_be_told(outcome) && is_array(bytes, length, 1) && is_array(message, message_room, 1);
}

/* Tells of the module, where it is valid and its tables are told or it is refused, and gives the status. */
static uint32_t tell(struct ruthvelka_outcome *outcome, uint32_t status, const struct ruthvelka_report *report) {
    if (status == RUTHVELKA_STATUS_REFUSED || status == RUTHVELKA_STATUS_DONE) return ruthvelka_tell(outcome, status, report);
    return ruthvelka_tell_nothing(outcome, status);
}

/* Whether a table may be written: it has room for all that is told, and its entries are of the size that this library writes. */
static bool is_table(const struct ruthvelka_side_table *it) {
    return it->size >= sizeof *it && it->entry_size == sizeof(struct ruthvelka_side_entry);
}

/* Whether these entries may be written: beside a table, which says how large they are, or none. */
static bool are_entries(const struct ruthvelka_side_table *table, const struct ruthvelka_side_entry *entries, size_t room) {
    return is_array(entries, room, sizeof *entries) && (table ? is_table(table) : !room);
}

uint32_t ruthvelka_side_table(const uint8_t *bytes, size_t length, uint64_t features, uint32_t function, char *message, size_t message_room,
    struct ruthvelka_outcome *outcome, struct ruthvelka_side_table *table, struct ruthvelka_side_entry *entries, size_t entry_room) {
    struct ruthvelka_report report;
    struct ruthvelka_proved_table told = {0, 0, 0, 0, 0};
    if (!are_given(bytes, length, features, message, message_room, outcome) || !are_entries(table, entries, entry_room))
        return ruthvelka_tell_nothing(outcome, RUTHVELKA_STATUS_WRONG);
    const uint32_t status = ruthvelka_proved_side_table(bytes ? bytes : none.bytes, length, features, function,
        message ? (uint8_t *)message : none.bytes, message_room, &report, &told, entries ? entries : none.entries, entry_room);
    if (status == RUTHVELKA_STATUS_DONE && table) {
        table->entries = told.entries, table->first = told.first, table->end = told.end;
        table->operands = told.operands, table->locals = told.locals;
    }
    return tell(outcome, status, &report);
}

/* Whether totals may be written: they have room for all that is told, and tables and entries are of the sizes that this library writes. */
static bool are_totals(const struct ruthvelka_side_tables *it) {
    return it->size >= sizeof *it && it->table_size == sizeof(struct ruthvelka_body_table) && it->entry_size == sizeof(struct ruthvelka_side_entry);
}

/* Whether all these may be written: tables and entries beside totals, which say how large they are, or none. */
static bool are_tables(const struct ruthvelka_side_tables *totals, const struct ruthvelka_body_table *tables, size_t table_room,
    const struct ruthvelka_side_entry *entries, size_t entry_room) {
    return is_array(tables, table_room, sizeof *tables) && is_array(entries, entry_room, sizeof *entries)
        && (totals ? are_totals(totals) : !table_room && !entry_room);
}

uint32_t ruthvelka_side_tables(const uint8_t *bytes, size_t length, uint64_t features, char *message, size_t message_room,
    struct ruthvelka_outcome *outcome, struct ruthvelka_side_tables *totals, struct ruthvelka_body_table *tables, size_t table_room,
    struct ruthvelka_side_entry *entries, size_t entry_room) {
    struct ruthvelka_report report;
    struct ruthvelka_proved_totals told = {0, 0};
    if (!are_given(bytes, length, features, message, message_room, outcome)
        || !are_tables(totals, tables, table_room, entries, entry_room))
        return ruthvelka_tell_nothing(outcome, RUTHVELKA_STATUS_WRONG);
    const uint32_t status = ruthvelka_proved_side_tables(bytes ? bytes : none.bytes, length, features, message ? (uint8_t *)message : none.bytes,
        message_room, &report, &told, tables ? tables : none.tables, table_room, entries ? entries : none.entries, entry_room);
    if (status == RUTHVELKA_STATUS_DONE && totals) totals->tables = told.tables, totals->entries = told.entries;
    return tell(outcome, status, &report);
}
