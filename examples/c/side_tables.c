/* side_tables MODULE: prints the side tables of all bodies of a module, which one call makes: of each its function, where its instructions stand, how many
   operands and locals it has, and each branch. */
#include <ruthvelka.h>

#include "files.h"

/* A module's tables, and the entries of all of them. */
struct made {
    struct ruthvelka_side_tables totals;
    struct ruthvelka_body_table *tables;
    struct ruthvelka_side_entry *entries;
};

/* Gives the status of a call with this room. */
static uint32_t make(const uint8_t *bytes, size_t length, struct made *to, size_t table_room, size_t entry_room) {
    return ruthvelka_side_tables(bytes, length, RUTHVELKA_STANDARD, NULL, 0, NULL, &to->totals, to->tables, table_room, to->entries, entry_room);
}

/* First how many tables and entries there are, and then they. */
static uint32_t read_tables(const uint8_t *bytes, size_t length, struct made *to) {
    const uint32_t status = make(bytes, length, to, 0, 0);
    const size_t table_room = (size_t)to->totals.tables, entry_room = (size_t)to->totals.entries;
    if (status != RUTHVELKA_STATUS_DONE) return status;
    to->tables = calloc(table_room + 1, sizeof *to->tables);
    to->entries = calloc(entry_room + 1, sizeof *to->entries);
    if (!to->tables || !to->entries) exit(2);
    return make(bytes, length, to, table_room, entry_room);
}

static void print_table(const struct ruthvelka_body_table *table, const struct ruthvelka_side_entry *entries) {
    printf("function %u: instructions from %u to %u, operands %u, locals %u\n", table->function, table->first, table->end, table->operands,
        table->locals);
    for (uint64_t i = 0; i < table->entries; i++)
        printf("entry %llu: at %u to %u and entry %u, keeps %u, drops %u\n", (unsigned long long)i, entries[i].at, entries[i].target, entries[i].next,
            entries[i].kept, entries[i].dropped);
}

int main(int count, char **words) {
    struct made made = {{sizeof made.totals, sizeof *made.tables, sizeof *made.entries, 0, 0}, NULL, NULL};
    size_t length = 0;
    uint8_t *bytes = count == 2 ? read_file(words[1], &length) : NULL;
    if (!bytes) {
        fprintf(stderr, count == 2 ? "side_tables: cannot read %s\n" : "usage: side_tables MODULE\n", words[1]);
        return 2;
    }
    const uint32_t status = read_tables(bytes, length, &made);
    free(bytes);
    if (status == RUTHVELKA_STATUS_DONE)
        for (uint64_t i = 0; i < made.totals.tables; i++) print_table(&made.tables[i], made.entries + made.tables[i].start);
    else
        printf("no tables\n");
    free(made.tables);
    free(made.entries);
    return status != RUTHVELKA_STATUS_DONE;
}
