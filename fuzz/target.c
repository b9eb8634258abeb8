/* target.c: what libFuzzer calls with each input, a module's bytes. These calls of ruthvelka.h are made on it, and what they say has to agree:

   - ruthvelka_validate, _with_ids, _with_externs and a list of this module alone: one verdict, one report;
   - ruthvelka_check: the same verdict, and the same told of it;
   - a validator behind a handle: the same verdict, and its types tell the imports, exports and ids of version 1, each with what its kind has;
   - side tables: of a valid module one for each body, within it, whose entries lead to places in it, and the same where it is asked for by itself;
   - custom sections, bodies and a function's name: within the bytes, and told of each valid module;
   - the same module twice in a list: twice the verdict, and the same ids; a list with questions: the same reports, and a type is below itself;
   - a set of features and one with more: what is valid under the first is valid under the second;
   - a refusal: its offset is in the bytes, and the missing feature is one that was off;
   - room: nothing is written behind it, and less room gives the front of the same text and of the same ids.

   With FUZZ_PRINT in the environment it prints the verdict of each input under all features, and tests nothing. With FUZZ_TRIED it keeps some of what is
   tried in the folder of that name, behind as many inputs as FUZZ_SEEDS says. */
#include "ruthvelka.h"
#include <stdio.h>
#include <stdlib.h>
#include <string.h>

#define ALL ((RUTHVELKA_COMPACT_IMPORTS << 1) - 1)
#define ROOM 64
#define MARK 0xA5

#define CHECK(condition, what)                                        \
    do {                                                              \
        if (!(condition)) {                                           \
            fprintf(stderr, "DISAGREE: %s (line %d)\n", what, __LINE__); \
            abort();                                                  \
        }                                                             \
    } while (0)

/* A module of the type [i32] -> [f64]. */
static const uint8_t ONE_TYPE[] = {0, 'a', 's', 'm', 1, 0, 0, 0, 1, 6, 1, 0x60, 1, 0x7f, 1, 0x7c};

static uint64_t hash(const uint8_t *bytes, size_t length) {
    uint64_t h = UINT64_C(14695981039346656037);
    for (size_t i = 0; i < length; i++) h = (h ^ bytes[i]) * UINT64_C(1099511628211);
    return h;
}

static void same_reports(const struct ruthvelka_report *one, const struct ruthvelka_report *other, const char *what) {
    CHECK(one->verdict == other->verdict, what);
    CHECK(one->offset == other->offset && one->missing_features == other->missing_features && one->function == other->function, what);
    CHECK(one->types == other->types && one->functions == other->functions && one->tables == other->tables && one->memories == other->memories, what);
    CHECK(one->globals == other->globals && one->tags == other->tags && one->imports == other->imports && one->exports == other->exports, what);
}

static int is_marked(const void *bytes, size_t length) {
    for (size_t i = 0; i < length; i++)
        if (((const uint8_t *)bytes)[i] != MARK) return 0;
    return 1;
}

/* The verdict with its message, in less room and in none. */
static struct ruthvelka_report check_message(const uint8_t *bytes, size_t length, uint64_t features) {
    struct ruthvelka_report report, again;
    char text[ROOM * 4], front[ROOM];
    memset(text, MARK, sizeof text);
    memset(front, MARK, sizeof front);
    uint32_t verdict = ruthvelka_validate(bytes, length, features, text, sizeof text, &report);
    CHECK(verdict == report.verdict, "the result is the report's verdict");
    CHECK(verdict == RUTHVELKA_VALID || verdict == RUTHVELKA_REFUSED || verdict == RUTHVELKA_NO_MEMORY, "a verdict on one module");
    if (verdict == RUTHVELKA_REFUSED) {
        uint64_t missing = report.missing_features;
        CHECK(report.offset <= length, "an offset in the bytes");
        CHECK((missing & features) == 0 && (missing & (missing - 1)) == 0 && (missing & ~ALL) == 0, "a missing feature that was off");
    } else {
        CHECK(report.offset == 0 && report.message_length == 0, "no message without a refusal");
    }
    if (report.message_length < sizeof text) CHECK(is_marked(text + report.message_length, sizeof text - report.message_length), "nothing behind a message");
    CHECK(ruthvelka_validate(bytes, length, features, front, 7, &again) == verdict, "the same verdict again");
    same_reports(&report, &again, "the same report again");
    size_t written = report.message_length < 7 ? report.message_length : 7;
    CHECK(again.message_length == report.message_length && memcmp(front, text, written) == 0, "the front of the message");
    CHECK(is_marked(front + written, sizeof front - written), "nothing behind the room");
    return report;
}

static void check_ids(const uint8_t *bytes, size_t length, uint64_t features, const struct ruthvelka_report *wanted) {
    struct ruthvelka_report report;
    uint32_t types[ROOM], functions[ROOM], more[ROOM * 4], list_functions[ROOM * 2];
    memset(types, MARK, sizeof types);
    memset(functions, MARK, sizeof functions);
    memset(more, MARK, sizeof more);
    ruthvelka_validate_with_ids(bytes, length, features, NULL, 0, &report, types, ROOM, functions, ROOM);
    same_reports(wanted, &report, "with ids");
    int is_valid = report.verdict == RUTHVELKA_VALID;
    size_t told = is_valid ? (report.types < ROOM ? report.types : ROOM) : 0;
    CHECK(is_marked(types + told, (ROOM - told) * sizeof types[0]), "nothing behind the ids");

    struct ruthvelka_bytes list[2] = {{bytes, length}, {bytes, length}};
    struct ruthvelka_report reports[2];
    CHECK(ruthvelka_validate_list(list, 1, features, reports, 1, more, ROOM * 4, list_functions, ROOM * 2) == RUTHVELKA_VALID, "a list of one");
    same_reports(wanted, reports, "a list of one");
    if (is_valid) CHECK(memcmp(types, more, told * sizeof types[0]) == 0, "the ids of a list of one");
    CHECK(ruthvelka_validate_list(list, 2, features, reports, 2, more, ROOM * 4, list_functions, ROOM * 2) == RUTHVELKA_VALID, "a list of two");
    same_reports(wanted, reports, "a list of two, the first");
    if (reports[1].verdict != RUTHVELKA_NOT_CHECKED) {
        CHECK(reports[1].verdict == wanted->verdict && reports[1].offset == wanted->offset, "a list of two, the second");
        uint64_t by_id = features & (RUTHVELKA_GC | RUTHVELKA_FUNCTION_REFERENCES | RUTHVELKA_STACK_SWITCHING | RUTHVELKA_CUSTOM_DESCRIPTORS);
        if (is_valid && by_id && report.types <= ROOM) CHECK(memcmp(more, more + report.types, report.types * sizeof more[0]) == 0, "equal types, equal ids");
    } else {
        CHECK(wanted->verdict != RUTHVELKA_VALID, "a list goes on behind a valid module");
    }

    /* behind another module */
    struct ruthvelka_bytes mixed[2] = {{ONE_TYPE, sizeof ONE_TYPE}, {bytes, length}};
    struct ruthvelka_report behind[2];
    CHECK(ruthvelka_validate_list(mixed, 2, features | RUTHVELKA_FLOATS, behind, 2, NULL, 0, NULL, 0) == RUTHVELKA_VALID, "a list behind another module");
    CHECK(behind[0].verdict == RUTHVELKA_VALID && behind[0].types == 1, "the other module");
    if (features & RUTHVELKA_FLOATS && behind[1].verdict != RUTHVELKA_NO_MEMORY) same_reports(wanted, behind + 1, "behind another module");

    struct ruthvelka_query queries[3] = {
        {.kind = RUTHVELKA_IS_SUBTYPE, .first_module = 0, .first = 0, .second_module = 1, .second = 0},
        {.kind = RUTHVELKA_MAY_BE_GIVEN, .first_module = 0, .first = 0, .second_module = 1, .second = 0},
        {.kind = 77, .first_module = 9, .first = 9, .second_module = 9, .second = 9},
    };
    struct ruthvelka_report asked[2];
    CHECK(ruthvelka_validate_list_with_queries(list, 2, features, asked, 2, queries, 3) == RUTHVELKA_VALID, "a list with questions");
    same_reports(reports, asked, "a list with questions, the first");
    same_reports(reports + 1, asked + 1, "a list with questions, the second");
    CHECK(queries[2].answer == RUTHVELKA_UNKNOWN, "no such question");
    if (is_valid && report.types && features & RUTHVELKA_GC) CHECK(queries[0].answer == RUTHVELKA_YES, "a type is below itself");
    if (!is_valid || !report.types) CHECK(queries[0].answer == RUTHVELKA_UNKNOWN, "no type to ask about");
    if (!is_valid || !report.exports || !report.imports) CHECK(queries[1].answer == RUTHVELKA_UNKNOWN, "nothing to link");
}

static void check_externs(const uint8_t *bytes, size_t length, uint64_t features, const struct ruthvelka_report *wanted) {
    struct ruthvelka_report report;
    struct ruthvelka_extern imports[8], exports[8];
    char names[ROOM];
    memset(names, MARK, sizeof names);
    ruthvelka_validate_with_externs(bytes, length, features, NULL, 0, &report, imports, 8, exports, 8, names, sizeof names);
    same_reports(wanted, &report, "with externs");
    CHECK(report.names_length <= length, "names that are in the bytes");
    size_t written = report.names_length < sizeof names ? report.names_length : sizeof names;
    CHECK(is_marked(names + written, sizeof names - written), "nothing behind the names");
    for (uint64_t i = 0; report.verdict == RUTHVELKA_VALID && i < report.imports && i < 8; i++)
        CHECK(imports[i].name_start + imports[i].name_length <= report.names_length, "a name of an import");
}

/* The call for gates: the same verdict, and the same told of it. */
static void check_outcome(const uint8_t *bytes, size_t length, uint64_t features, const struct ruthvelka_report *wanted) {
    struct ruthvelka_outcome outcome = {.size = sizeof outcome};
    const uint32_t status = ruthvelka_check(bytes, length, features, NULL, 0, &outcome);
    CHECK(status == outcome.status, "the result is the outcome's status");
    if (status == RUTHVELKA_STATUS_NO_MEMORY) return;
    CHECK(status == (wanted->verdict == RUTHVELKA_VALID ? RUTHVELKA_STATUS_VALID : RUTHVELKA_STATUS_REFUSED), "a status for each verdict");
    CHECK(outcome.offset == wanted->offset && outcome.missing_features == wanted->missing_features && outcome.function == wanted->function
        && outcome.message_length == wanted->message_length, "an outcome, the refusal");
    CHECK(outcome.types == wanted->types && outcome.functions == wanted->functions && outcome.tables == wanted->tables
        && outcome.memories == wanted->memories && outcome.globals == wanted->globals && outcome.tags == wanted->tags
        && outcome.imports == wanted->imports && outcome.exports == wanted->exports, "an outcome, the counts");
}

/* One table among those of all: it lies in its body, its entries lead to places in it, and it is the same where it is asked for by itself. */
static void check_table(const uint8_t *bytes, size_t length, uint64_t features, const struct ruthvelka_body *body, const struct ruthvelka_body_table *it,
    const struct ruthvelka_side_entry *entries, size_t told) {
    struct ruthvelka_side_table alone = {.size = sizeof alone, .entry_size = sizeof(struct ruthvelka_side_entry)};
    struct ruthvelka_side_entry own[ROOM];
    CHECK(body->start <= it->first && it->first < it->end && it->end == body->end, "a table in its body");
    for (size_t i = 0; i < told; i++)
        CHECK(it->first <= entries[i].at && entries[i].at < it->end && it->first <= entries[i].target && entries[i].target <= it->end
            && entries[i].next <= it->entries && (uint64_t)entries[i].kept + entries[i].dropped <= it->operands, "an entry of a table");
    if (ruthvelka_side_table(bytes, length, features, it->function, NULL, 0, NULL, &alone, own, ROOM) == RUTHVELKA_STATUS_NO_MEMORY) return;
    CHECK(alone.entries == it->entries && alone.first == it->first && alone.end == it->end && alone.operands == it->operands
        && alone.locals == it->locals, "a table by itself");
    CHECK(!memcmp(own, entries, told * sizeof own[0]), "the entries of a table by itself");
}

static void check_tables(const uint8_t *bytes, size_t length, uint64_t features, const struct ruthvelka_report *wanted) {
    struct ruthvelka_side_tables totals = {.size = sizeof totals, .table_size = sizeof(struct ruthvelka_body_table),
        .entry_size = sizeof(struct ruthvelka_side_entry)};
    struct ruthvelka_body_table tables[8];
    struct ruthvelka_side_entry entries[ROOM + 1];
    struct ruthvelka_body bodies[8] = {{.size = sizeof bodies[0]}};
    uint64_t count, start = 0;
    memset(entries, MARK, sizeof entries);
    const uint32_t status = ruthvelka_side_tables(bytes, length, features, NULL, 0, NULL, &totals, tables, 8, entries, ROOM);
    if (status == RUTHVELKA_STATUS_NO_MEMORY) return;
    CHECK((status == RUTHVELKA_STATUS_DONE) == (wanted->verdict == RUTHVELKA_VALID), "side tables of a valid module");
    if (status != RUTHVELKA_STATUS_DONE) return;
    const size_t written = totals.entries < ROOM ? totals.entries : ROOM;
    CHECK(is_marked(entries + written, sizeof entries - written * sizeof entries[0]), "nothing behind the entries");
    CHECK(ruthvelka_bodies(bytes, length, &count, bodies, 8) == RUTHVELKA_STATUS_DONE && count == totals.tables, "a table for each body");
    for (uint64_t i = 0; i < totals.tables && i < 8; i++) {
        CHECK(tables[i].start == start && tables[i].function == wanted->functions - totals.tables + i, "a table behind those before");
        const uint64_t left = start < written ? written - start : 0;
        check_table(bytes, length, features, &bodies[i], &tables[i], entries + (left ? start : 0), left < tables[i].entries ? left : tables[i].entries);
        start += tables[i].entries;
    }
    CHECK(totals.tables > 8 || start == totals.entries, "the entries of all tables");
}

/* Where parts lie in the bytes, whether the module is valid or not. */
static void check_places(const uint8_t *bytes, size_t length, uint32_t function, const struct ruthvelka_report *wanted) {
    struct ruthvelka_custom_section sections[4] = {{.size = sizeof sections[0]}};
    struct ruthvelka_body bodies[8] = {{.size = sizeof bodies[0]}};
    uint64_t count, length_told, last = 0;
    char name[ROOM];
    uint32_t status = ruthvelka_custom_sections(bytes, length, &count, sections, 4);
    CHECK(status == RUTHVELKA_STATUS_DONE || (!count && wanted->verdict != RUTHVELKA_VALID), "the custom sections of a valid module");
    CHECK(count <= length / 3, "custom sections that are in the bytes");
    for (uint64_t i = 0; i < count && i < 4; i++)
        CHECK(sections[i].start < sections[i].name_start && sections[i].name_start + sections[i].name_length == sections[i].data_start
            && sections[i].data_start <= sections[i].end && sections[i].end <= length, "a custom section");
    status = ruthvelka_bodies(bytes, length, &count, bodies, 8);
    CHECK(status == RUTHVELKA_STATUS_DONE || (!count && wanted->verdict != RUTHVELKA_VALID), "the bodies of a valid module");
    for (uint64_t i = 0; i < count && i < 8; i++) {
        CHECK(last <= bodies[i].start && bodies[i].start <= bodies[i].end && bodies[i].end <= length, "a body behind the one before");
        last = bodies[i].end;
    }
    memset(name, MARK, sizeof name);
    status = ruthvelka_function_name(bytes, length, function, &length_told, name, ROOM - 8);
    CHECK(status == RUTHVELKA_STATUS_DONE || !length_told, "no name, and no length");
    CHECK(length_told <= length, "a name that is in the bytes");
    const size_t written = length_told < ROOM - 8 ? length_told : ROOM - 8;
    CHECK(is_marked(name + written, sizeof name - written), "nothing behind a name");
}

/* What kept types say of an import or an export of version 1: the same names, kind and id, what its kind has, and a type that can be asked about. */
static void check_type(struct ruthvelka_types *types, const struct ruthvelka_extern *wanted, const struct ruthvelka_extern_type *it) {
    struct ruthvelka_signature signature = {sizeof signature, 0, 0};
    struct ruthvelka_value_type params[8] = {{.size = sizeof params[0]}}, results[8] = {{.size = sizeof results[0]}};
    const int has_limits = it->kind == RUTHVELKA_TABLE || it->kind == RUTHVELKA_MEMORY;
    CHECK(it->size == sizeof *it && it->module_start == wanted->module_start && it->module_length == wanted->module_length
        && it->name_start == wanted->name_start && it->name_length == wanted->name_length && it->kind == wanted->kind && it->type_id == wanted->type_id,
        "kept types, names, kind and id");
    CHECK(has_limits || (!it->minimum && !it->maximum), "kept types, limits of a table or a memory");
    CHECK(it->flags & RUTHVELKA_HAS_MAXIMUM ? it->maximum >= it->minimum : !it->maximum, "kept types, a maximum");
    CHECK((it->value.kind != 0) == (it->kind == RUTHVELKA_TABLE || it->kind == RUTHVELKA_GLOBAL), "kept types, a value type");
    if (it->value.kind) CHECK(ruthvelka_types_matches(types, &it->value, &it->value) == RUTHVELKA_YES, "kept types, a value type matches itself");
    const uint32_t status = ruthvelka_types_signature(types, it->type_id, &signature, params, 8, results, 8);
    CHECK((status == RUTHVELKA_STATUS_DONE) == (it->type_id != RUTHVELKA_NO_ID), "kept types, a function type");
    for (uint64_t i = 0; i < signature.params && i < 8; i++)
        CHECK(ruthvelka_types_matches(types, &params[i], &params[i]) == RUTHVELKA_YES, "kept types, a parameter matches itself");
    for (uint64_t i = 0; i < signature.results && i < 8; i++)
        CHECK(ruthvelka_types_matches(types, &results[i], &results[i]) == RUTHVELKA_YES, "kept types, a result matches itself");
}

/* The ids of kept types are those of version 1; and another handle on them answers as the first. */
static void check_kept_ids(struct ruthvelka_types *types, const uint8_t *bytes, size_t length, uint64_t features) {
    struct ruthvelka_types again = RUTHVELKA_NOTHING;
    struct ruthvelka_outcome outcome = {.size = sizeof outcome};
    struct ruthvelka_report report;
    uint32_t wanted[2][ROOM], ids[2][ROOM];
    memset(wanted, MARK, sizeof wanted), memset(ids, MARK, sizeof ids);
    if (ruthvelka_validate_with_ids(bytes, length, features, NULL, 0, &report, wanted[0], ROOM, wanted[1], ROOM) != RUTHVELKA_VALID) return;
    CHECK(ruthvelka_types_ids(types, &outcome, ids[0], ROOM, ids[1], ROOM) == RUTHVELKA_STATUS_DONE && outcome.types == report.types
        && outcome.functions == report.functions && !memcmp(ids, wanted, sizeof ids), "kept types, ids");
    if (ruthvelka_types_retain(types, &again) != RUTHVELKA_STATUS_DONE) return;
    if (report.types) CHECK(ruthvelka_types_is_subtype(&again, ids[0][0], ids[0][0]) == RUTHVELKA_YES, "kept types, a type is below itself");
    CHECK(ruthvelka_types_entity_may_be_given(types, 0, &again, 0) == ruthvelka_types_entity_may_be_given(&again, 0, types, 0),
        "kept types, two handles");
    ruthvelka_types_release(&again);
    CHECK(ruthvelka_types_is_subtype(&again, ids[0][0], ids[0][0]) == RUTHVELKA_NO, "a handle that was released");
}

static void check_types(const uint8_t *bytes, size_t length, uint64_t features, const struct ruthvelka_report *wanted) {
    struct ruthvelka_validator validator = RUTHVELKA_NOTHING;
    struct ruthvelka_types types = RUTHVELKA_NOTHING;
    struct ruthvelka_outcome outcome = {.size = sizeof outcome};
    struct ruthvelka_report report;
    struct ruthvelka_extern imports[8], exports[8];
    struct ruthvelka_extern_type import_types[8] = {{.size = sizeof import_types[0]}}, export_types[8] = {{.size = sizeof export_types[0]}};
    char names[ROOM], kept_names[ROOM];
    if (ruthvelka_validator_new(&validator, features, NULL) != RUTHVELKA_STATUS_DONE) return;
    const uint32_t status = ruthvelka_validator_validate(&validator, bytes, length, NULL, 0, &outcome, NULL);
    CHECK((status == RUTHVELKA_STATUS_VALID) == (wanted->verdict == RUTHVELKA_VALID), "a validator's verdict");
    CHECK((ruthvelka_validator_types(&validator, &types) == RUTHVELKA_STATUS_DONE) == (status == RUTHVELKA_STATUS_VALID), "a validator's last types");
    const uint32_t reset = ruthvelka_validator_reset(&validator);
    CHECK(reset == RUTHVELKA_STATUS_DONE || (reset == RUTHVELKA_STATUS_FAILED && status != RUTHVELKA_STATUS_VALID), "a validator's reset");
    CHECK(ruthvelka_validator_validate(&validator, ONE_TYPE, sizeof ONE_TYPE, NULL, 0, NULL, NULL)
            == (reset == RUTHVELKA_STATUS_DONE ? RUTHVELKA_STATUS_VALID : RUTHVELKA_STATUS_FAILED), "a module behind a reset");
    ruthvelka_validator_free(&validator);
    if (status == RUTHVELKA_STATUS_VALID) {
        memset(names, MARK, sizeof names), memset(kept_names, MARK, sizeof kept_names);
        ruthvelka_validate_with_externs(bytes, length, features, NULL, 0, &report, imports, 8, exports, 8, names, sizeof names);
        CHECK(ruthvelka_types_externs(&types, &outcome, import_types, 8, export_types, 8, kept_names, sizeof kept_names) == RUTHVELKA_STATUS_DONE,
            "kept types");
        CHECK(outcome.imports == report.imports && outcome.exports == report.exports && outcome.names_length == report.names_length
            && !memcmp(names, kept_names, sizeof names), "kept types, counts and names");
        check_kept_ids(&types, bytes, length, features);
        for (uint64_t i = 0; i < report.imports && i < 8; i++) check_type(&types, &imports[i], &import_types[i]);
        for (uint64_t i = 0; i < report.exports && i < 8; i++) check_type(&types, &exports[i], &export_types[i]);
    }
    ruthvelka_types_release(&types);
}

/* Keeps each module that is valid under all features, and of the others each eighth, until there are enough of them to compare. */
static void keep_tried(const uint8_t *bytes, size_t length, uint64_t chance) {
    static unsigned long long tried, kept;
    const char *folder = getenv("FUZZ_TRIED"), *seeds = getenv("FUZZ_SEEDS");
    char name[1024];
    if (!folder || !seeds || tried++ <= strtoull(seeds, NULL, 10) || kept >= 8000) return;
    if (chance % 8 && ruthvelka_validate(bytes, length, ALL, NULL, 0, NULL) != RUTHVELKA_VALID) return;
    snprintf(name, sizeof name, "%s/%016llx", folder, (unsigned long long)chance);
    FILE *file = fopen(name, "wb");
    if (!file) return;
    kept += fwrite(bytes, 1, length, file) == length;
    fclose(file);
}

int LLVMFuzzerTestOneInput(const uint8_t *bytes, size_t length) {
    if (getenv("FUZZ_PRINT")) {
        printf("%s\n", ruthvelka_validate(bytes, length, ALL, NULL, 0, NULL) == RUTHVELKA_VALID ? "valid" : "invalid");
        fflush(stdout);
        return 0;
    }
    uint64_t chance = hash(bytes, length);
    uint64_t more = chance & 1 ? ALL : RUTHVELKA_STANDARD | (chance >> 20 & ALL), fewer = more & (chance >> 40 | chance << 24);
    struct ruthvelka_report large = check_message(bytes, length, more);
    struct ruthvelka_report small = check_message(bytes, length, fewer);
    if (large.verdict == RUTHVELKA_NO_MEMORY || small.verdict == RUTHVELKA_NO_MEMORY) return 0;
    CHECK(small.verdict != RUTHVELKA_VALID || large.verdict == RUTHVELKA_VALID, "more features don't make a valid module invalid");
    check_ids(bytes, length, more, &large);
    check_externs(bytes, length, more, &large);
    check_types(bytes, length, more, &large);
    check_outcome(bytes, length, more, &large);
    check_tables(bytes, length, more, &large);
    check_places(bytes, length, (uint32_t)(chance % 8), &large);
    check_outcome(bytes, length, fewer, &small);
    check_ids(bytes, length, fewer, &small);
    keep_tried(bytes, length, chance);
    return 0;
}
