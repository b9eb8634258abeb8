/* signatures MODULE: prints the whole type of each import and export of a module, without a name that it can't print; and checks a host function by
   its signature, as a host does that gives one to a module: `env.print`, which takes an i32 and gives nothing. */
#include <ruthvelka.h>
#include <string.h>

#include "files.h"

#define MOST_VALUES 1000 /* as the gate has it: a function type has at most 1,000 parameters and 1,000 results */

/* A module's imports and exports, with all their names. */
struct links {
    struct ruthvelka_extern_type *imports, *exports;
    uint64_t import_count, export_count, names_length;
    char *names;
};

/* First how many there are, and then they. */
static int read_links(struct ruthvelka_types *types, struct links *links) {
    struct ruthvelka_outcome outcome = {.size = sizeof outcome};
    if (ruthvelka_types_externs(types, &outcome, NULL, 0, NULL, 0, NULL, 0) != RUTHVELKA_STATUS_DONE) return 0;
    links->import_count = outcome.imports, links->export_count = outcome.exports, links->names_length = outcome.names_length;
    links->imports = calloc(links->import_count + 1, sizeof *links->imports);
    links->exports = calloc(links->export_count + 1, sizeof *links->exports);
    links->names = malloc(links->names_length + 1);
    if (!links->imports || !links->exports || !links->names) exit(2);
    links->imports->size = links->exports->size = sizeof *links->imports;
    return ruthvelka_types_externs(types, &outcome, links->imports, links->import_count, links->exports, links->export_count, links->names,
               links->names_length)
        == RUTHVELKA_STATUS_DONE;
}

static void print_heap(const struct ruthvelka_value_type *it) {
    static const char *const names[] = {"cont", "exn", "array", "struct", "i31", "eq", "any", "extern", "func", "none", "noextern", "nofunc", "noexn",
        "nocont"};
    if (it->flags & RUTHVELKA_HEAP_IS_SHARED) printf("(shared %s)", names[it->heap - RUTHVELKA_HEAP_CONT]);
    else if (it->flags & RUTHVELKA_HEAP_IS_EXACT) printf("(exact type %u)", it->id);
    else if (it->heap == RUTHVELKA_HEAP_ID) printf("type %u", it->id);
    else printf("%s", names[it->heap - RUTHVELKA_HEAP_CONT]);
}

static void print_value(const struct ruthvelka_value_type *it) {
    static const char *const numbers[] = {"v128", "f64", "f32", "i64", "i32"};
    if (it->kind >= RUTHVELKA_V128) {
        printf("%s", numbers[it->kind - RUTHVELKA_V128]);
        return;
    }
    printf("(ref %s", it->kind == RUTHVELKA_NULL_OR_REFERENCE ? "null " : "");
    print_heap(it);
    printf(")");
}

static void print_values(const char *word, const struct ruthvelka_value_type *values, uint64_t count) {
    if (!count) return;
    printf(" (%s", word);
    for (uint64_t i = 0; i < count; i++) printf(" "), print_value(&values[i]);
    printf(")");
}

static void print_signature(struct ruthvelka_types *types, uint32_t id) {
    static struct ruthvelka_value_type params[MOST_VALUES], results[MOST_VALUES];
    struct ruthvelka_signature signature = {sizeof signature, 0, 0};
    params->size = results->size = sizeof *params;
    if (ruthvelka_types_signature(types, id, &signature, params, MOST_VALUES, results, MOST_VALUES) != RUTHVELKA_STATUS_DONE) return;
    print_values("param", params, signature.params), print_values("result", results, signature.results);
}

static void print_limits(const struct ruthvelka_extern_type *it) {
    if (it->flags & RUTHVELKA_HAS_64_BITS) printf(" i64");
    printf(" %llu", (unsigned long long)it->minimum);
    if (it->flags & RUTHVELKA_HAS_MAXIMUM) printf(" %llu", (unsigned long long)it->maximum);
    if (it->flags & RUTHVELKA_IS_SHARED) printf(" shared");
}

static void print_type(struct ruthvelka_types *types, const struct ruthvelka_extern_type *it) {
    static const char *const words[] = {"func", "table", "memory", "global", "tag"};
    printf("(%s", it->kind == RUTHVELKA_EXACT_FUNCTION ? "func exact" : words[it->kind]);
    if (it->type_id != RUTHVELKA_NO_ID) print_signature(types, it->type_id);
    if (it->kind == RUTHVELKA_TABLE || it->kind == RUTHVELKA_MEMORY) print_limits(it);
    if (it->kind == RUTHVELKA_MEMORY && it->page_size_log2 != 16) printf(" (pagesize 2^%u)", it->page_size_log2);
    if (it->kind == RUTHVELKA_GLOBAL && it->flags & RUTHVELKA_IS_MUTABLE) printf(" mut");
    if (it->kind == RUTHVELKA_GLOBAL && it->flags & RUTHVELKA_IS_SHARED) printf(" shared");
    if (it->value.kind) printf(" "), print_value(&it->value);
    printf(")\n");
}

/* A name is the module's own word, so of other characters than letters and digits a mark is printed. */
static void print_name(const char *names, uint64_t start, uint64_t length) {
    for (uint64_t i = start; i < start + length; i++) {
        const char it = names[i];
        putchar((it >= '0' && it <= '9') || (it >= 'A' && it <= 'Z') || (it >= 'a' && it <= 'z') || it == '_' ? it : '?');
    }
}

static int has_name(const char *names, uint64_t start, uint64_t length, const char *wanted) {
    return length == strlen(wanted) && !memcmp(names + start, wanted, length);
}

/* Whether the host's `env.print` may be given: the import has its signature. */
static int is_print(struct ruthvelka_types *types, const struct ruthvelka_extern_type *it) {
    struct ruthvelka_signature signature = {sizeof signature, 0, 0};
    struct ruthvelka_value_type params[1] = {{.size = sizeof params[0]}};
    return it->kind == RUTHVELKA_FUNCTION
        && ruthvelka_types_signature(types, it->type_id, &signature, params, 1, NULL, 0) == RUTHVELKA_STATUS_DONE && signature.params == 1
        && !signature.results && params[0].kind == RUTHVELKA_I32;
}

static void print_links(struct ruthvelka_types *types, const struct links *links) {
    for (uint64_t i = 0; i < links->import_count; i++) {
        const struct ruthvelka_extern_type *it = &links->imports[i];
        printf("import "), print_name(links->names, it->module_start, it->module_length), printf(".");
        print_name(links->names, it->name_start, it->name_length), printf(": "), print_type(types, it);
        if (has_name(links->names, it->module_start, it->module_length, "env") && has_name(links->names, it->name_start, it->name_length, "print"))
            printf("the host's function %s\n", is_print(types, it) ? "is given" : "has another signature");
    }
    for (uint64_t i = 0; i < links->export_count; i++) {
        const struct ruthvelka_extern_type *it = &links->exports[i];
        printf("export "), print_name(links->names, it->name_start, it->name_length), printf(": "), print_type(types, it);
    }
}

int main(int count, char **files) {
    struct ruthvelka_validator validator = RUTHVELKA_NOTHING;
    struct ruthvelka_types types = RUTHVELKA_NOTHING;
    struct links links = {NULL, NULL, 0, 0, 0, NULL};
    size_t length;
    uint8_t *bytes = count == 2 ? read_file(files[1], &length) : NULL;
    if (!bytes) fprintf(stderr, count == 2 ? "signatures: cannot read %s\n" : "usage: signatures MODULE\n", files[1]);
    if (!bytes || ruthvelka_validator_new(&validator, RUTHVELKA_STANDARD | RUTHVELKA_CRATE_LIMITS, NULL) != RUTHVELKA_STATUS_DONE) return 2;
    const int is_valid = ruthvelka_validator_validate(&validator, bytes, length, NULL, 0, NULL, &types) == RUTHVELKA_STATUS_VALID;
    if (is_valid && read_links(&types, &links)) print_links(&types, &links);
    else printf("not valid\n");
    ruthvelka_types_release(&types), ruthvelka_validator_free(&validator);
    free(links.imports), free(links.exports), free(links.names), free(bytes);
    return !is_valid;
}
