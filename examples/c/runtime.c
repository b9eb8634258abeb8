/* runtime MODULE..: loads modules one after another, as an engine does, and keeps the types of each. Each import is looked up by its own name among the
   exports of the modules before, the last one first, and linked where what is found may be given for it. A module that is refused isn't loaded. */
#include <ruthvelka.h>
#include <string.h>

#include "files.h"

/* A module that was loaded: its types, and its imports or exports with all names. */
struct loaded {
    struct ruthvelka_types types;
    struct ruthvelka_extern_type *imports, *exports;
    uint64_t import_count, export_count;
    char *names;
};

/* Reads the names of a module that was accepted: first how many there are, and then they. */
static int read_names(struct loaded *module) {
    struct ruthvelka_outcome outcome = {.size = sizeof outcome};
    if (ruthvelka_types_externs(&module->types, &outcome, NULL, 0, NULL, 0, NULL, 0) != RUTHVELKA_STATUS_DONE) return 0;
    module->import_count = outcome.imports, module->export_count = outcome.exports;
    module->imports = calloc(outcome.imports + 1, sizeof *module->imports);
    module->exports = calloc(outcome.exports + 1, sizeof *module->exports);
    module->names = malloc(outcome.names_length + 1);
    if (!module->imports || !module->exports || !module->names) exit(2);
    module->imports->size = module->exports->size = sizeof *module->imports;
    return ruthvelka_types_externs(&module->types, &outcome, module->imports, module->import_count, module->exports, module->export_count,
               module->names, outcome.names_length)
        == RUTHVELKA_STATUS_DONE;
}

/* Links one import to the last module before that exports its name, and prints a line of it. */
static void link_import(struct loaded *modules, int count, uint32_t number) {
    struct loaded *importer = &modules[count];
    const struct ruthvelka_extern_type *wanted = &importer->imports[number];
    const char *answer = "not exported";
    for (int it = count - 1; it >= 0 && !strcmp(answer, "not exported"); it--)
        for (uint32_t found = 0; found < modules[it].export_count; found++) {
            const struct ruthvelka_extern_type *given = &modules[it].exports[found];
            if (given->name_length != wanted->name_length
                || memcmp(modules[it].names + given->name_start, importer->names + wanted->name_start, wanted->name_length))
                continue;
            answer = ruthvelka_types_entity_may_be_given(&modules[it].types, found, &importer->types, number) == RUTHVELKA_YES ? "linked"
                                                                                                                            : "not linked";
        }
    print_escaped(importer->names + wanted->module_start, wanted->module_length), putchar('.');
    print_escaped(importer->names + wanted->name_start, wanted->name_length), printf(": %s\n", answer);
}

/* Loads one module behind the others. The validator sees only what is valid by itself, so only one with more types than ids are left can make it fail. */
static int load(struct ruthvelka_validator *validator, const char *file, struct loaded *modules, int count) {
    size_t length;
    struct ruthvelka_outcome outcome = {.size = sizeof outcome};
    uint8_t *bytes = read_file(file, &length);
    if (!bytes) {
        fprintf(stderr, "runtime: cannot read %s\n", file);
        return 0;
    }
    const int is_loaded = ruthvelka_check(bytes, length, RUTHVELKA_STANDARD, NULL, 0, &outcome) == RUTHVELKA_STATUS_VALID
        && ruthvelka_validator_validate(validator, bytes, length, NULL, 0, &outcome, &modules[count].types) == RUTHVELKA_STATUS_VALID
        && read_names(&modules[count]);
    if (!is_loaded) printf("not loaded, for byte %llu\n", (unsigned long long)outcome.offset);
    for (uint32_t it = 0; is_loaded && it < modules[count].import_count; it++) link_import(modules, count, it);
    free(bytes);
    return is_loaded;
}

int main(int count, char **files) {
    struct ruthvelka_validator validator = RUTHVELKA_NOTHING;
    struct loaded *modules = calloc((size_t)count, sizeof *modules);
    int loaded = 0;
    if (!modules || ruthvelka_validator_new(&validator, RUTHVELKA_STANDARD, NULL) != RUTHVELKA_STATUS_DONE) return 2;
    for (int it = 1; it < count; it++) loaded += load(&validator, files[it], modules, loaded);
    ruthvelka_validator_free(&validator);
    for (int it = 0; it < loaded; it++) {
        ruthvelka_types_release(&modules[it].types);
        free(modules[it].imports), free(modules[it].exports), free(modules[it].names);
    }
    free(modules);
    return loaded < count - 1;
}
