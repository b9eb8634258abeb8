/* linker EXPORTER IMPORTER: each import of the second module is looked up among the exports of the first by its own name, and linked where what is
   found may be given for it. */
#include <ruthvelka.h>
#include <string.h>

#include "files.h"

/* The imports or the exports of a module, with all its names. */
struct side {
    struct ruthvelka_extern *externs;
    uint64_t count;
    char *names;
};

/* Those of a module: first how many there are, and then they. What it returns is null in a side where the module isn't valid. */
static struct side read_side(const uint8_t *bytes, size_t length, int wants_imports) {
    struct ruthvelka_report report;
    struct side side = {NULL, 0, NULL};
    if (ruthvelka_validate_with_externs(bytes, length, RUTHVELKA_STANDARD, NULL, 0, &report, NULL, 0, NULL, 0, NULL, 0) != RUTHVELKA_VALID)
        return side;
    side.count = wants_imports ? report.imports : report.exports;
    side.externs = calloc(side.count + 1, sizeof *side.externs);
    side.names = malloc(report.names_length + 1);
    if (!side.externs || !side.names) exit(2);
    if (ruthvelka_validate_with_externs(bytes, length, RUTHVELKA_STANDARD, NULL, 0, &report, wants_imports ? side.externs : NULL,
            wants_imports ? side.count : 0, wants_imports ? NULL : side.externs, wants_imports ? 0 : side.count, side.names, report.names_length)
        != RUTHVELKA_VALID)
        exit(2);
    return side;
}

/* The number of the export with the name of this import, or the count of exports. */
static uint32_t find_export(const struct side *exports, const struct side *imports, uint32_t wanted) {
    const struct ruthvelka_extern *import = &imports->externs[wanted];
    uint32_t found = 0;
    while (found < exports->count
        && (exports->externs[found].name_length != import->name_length
            || memcmp(exports->names + exports->externs[found].name_start, imports->names + import->name_start, import->name_length)))
        found++;
    return found;
}

/* Links all imports by one call, and prints a line of each. */
static int link_all(const struct ruthvelka_bytes *modules, const struct side *exports, const struct side *imports) {
    static const char *const words[] = {"not linked", "linked", "not exported"};
    struct ruthvelka_query *queries = calloc(imports->count + 1, sizeof *queries);
    if (!queries) return 2;
    for (uint32_t i = 0; i < imports->count; i++)
        queries[i] = (struct ruthvelka_query){.kind = RUTHVELKA_MAY_BE_GIVEN, .first_module = 0, .first = find_export(exports, imports, i),
            .second_module = 1, .second = i, .answer = 0};
    if (ruthvelka_validate_list_with_queries(modules, 2, RUTHVELKA_STANDARD, NULL, 0, queries, imports->count) != RUTHVELKA_VALID) return 2;
    for (uint32_t i = 0; i < imports->count; i++) {
        const struct ruthvelka_extern *it = &imports->externs[i];
        print_escaped(imports->names + it->module_start, it->module_length), putchar('.');
        print_escaped(imports->names + it->name_start, it->name_length), printf(": %s\n", words[queries[i].answer]);
    }
    free(queries);
    return 0;
}

int main(int count, char **names) {
    struct ruthvelka_bytes modules[2];
    uint8_t *read[2];
    if (count != 3) {
        fprintf(stderr, "usage: linker EXPORTER IMPORTER\n");
        return 2;
    }
    for (int i = 0; i < 2; i++) {
        if (!(read[i] = read_file(names[i + 1], &modules[i].length))) {
            fprintf(stderr, "linker: cannot read %s\n", names[i + 1]);
            return 2;
        }
        modules[i].bytes = read[i];
    }
    struct side exports = read_side(modules[0].bytes, modules[0].length, 0);
    struct side imports = read_side(modules[1].bytes, modules[1].length, 1);
    const int status = exports.externs && imports.externs ? link_all(modules, &exports, &imports) : 1;
    free(exports.externs), free(exports.names), free(imports.externs), free(imports.names), free(read[0]), free(read[1]);
    return status;
}
