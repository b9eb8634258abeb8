/* side_table MODULE FUNCTION: prints the side table of the body of a function, imported ones counted: where its instructions stand, how many operands and
   locals it has, and each branch. */
#include <ruthvelka.h>

#include "files.h"

/* First how many entries there are, and then they. */
static struct ruthvelka_side_entry *read_table(const uint8_t *bytes, size_t length, uint32_t function, struct ruthvelka_side_table *table) {
    struct ruthvelka_side_entry *entries;
    if (ruthvelka_side_table(bytes, length, RUTHVELKA_STANDARD, function, NULL, 0, NULL, table, NULL, 0) != RUTHVELKA_STATUS_DONE) return NULL;
    const size_t room = (size_t)table->entries;
    entries = calloc(room + 1, sizeof *entries);
    if (!entries) exit(2);
    if (ruthvelka_side_table(bytes, length, RUTHVELKA_STANDARD, function, NULL, 0, NULL, table, entries, room) == RUTHVELKA_STATUS_DONE) return entries;
    free(entries);
    return NULL;
}

int main(int count, char **words) {
    struct ruthvelka_side_table table = {sizeof table, sizeof(struct ruthvelka_side_entry), 0, 0, 0, 0, 0};
    size_t length = 0;
    uint8_t *bytes = count == 3 ? read_file(words[1], &length) : NULL;
    if (!bytes) {
        fprintf(stderr, count == 3 ? "side_table: cannot read %s\n" : "usage: side_table MODULE FUNCTION\n", words[1]);
        return 2;
    }
    struct ruthvelka_side_entry *entries = read_table(bytes, length, (uint32_t)strtoul(words[2], NULL, 10), &table);
    free(bytes);
    if (!entries) {
        printf("no table\n");
        return 1;
    }
    printf("instructions from %u to %u, operands %u, locals %u\n", table.first, table.end, table.operands, table.locals);
    for (uint64_t i = 0; i < table.entries; i++)
        printf("entry %llu: at %u to %u and entry %u, keeps %u, drops %u\n", (unsigned long long)i, entries[i].at, entries[i].target, entries[i].next,
            entries[i].kept, entries[i].dropped);
    free(entries);
    return 0;
}
