/* What the header says is left out is refused, under all features or without a feature of its own; and what it doesn't name there is not. The
   limits of CRATE_LIMITS are there with that feature alone, and no proposal lifts them. */
#include <ruthvelka.h>
#include <stdio.h>
#include <string.h>

#define ALL ((RUTHVELKA_COMPACT_IMPORTS << 1) - 1 - RUTHVELKA_CRATE_LIMITS)
static long wrong;

/* Validates a module with a memory and a function whose body is `unreachable`, these bytes, `unreachable` and `end`. The bytes begin at byte 29. */
static uint32_t validate(const uint8_t *code, uint8_t length, uint64_t features, char text[64], struct ruthvelka_report *report) {
    uint8_t module[64] = {0x00, 0x61, 0x73, 0x6d, 0x01, 0x00, 0x00, 0x00, 0x01, 0x04, 0x01, 0x60, 0x00, 0x00, 0x03, 0x02, 0x01, 0x00,
        0x05, 0x03, 0x01, 0x00, 0x01, 0x0a, 0, 0x01, 0, 0x00, 0x00};
    module[24] = (uint8_t)(length + 6), module[26] = (uint8_t)(length + 4);
    memcpy(module + 29, code, length);
    module[29 + length] = 0x00, module[30 + length] = 0x0b;
    return ruthvelka_validate(module, 31u + length, features, text, 64, report);
}

/* The message has to begin so: these bytes may be refused for nothing else. */
static void expect_refused(const char *what, const uint8_t *code, uint8_t length, uint64_t features, const char *why) {
    struct ruthvelka_report report;
    char text[64];
    if (validate(code, length, features, text, &report) == RUTHVELKA_REFUSED && report.offset == 29 && !memcmp(text, why, strlen(why))) return;
    printf("wrong: %s is not refused as it should be\n", what);
    wrong++;
}

/* So many operators from this one on, by their first byte or, behind a prefix, the second. Behind them come zeros. */
struct group {
    const char *name;
    uint64_t feature;
    uint8_t code[2];
    int at, count;
};

/* Without their feature their opcodes are none, and no proposal is missing; with it they are read. */
static void try_group(const struct group *group) {
    for (int it = 0; it < group->count; it++) {
        uint8_t code[16] = {group->code[0], group->code[1]};
        char text[64];
        struct ruthvelka_report report;
        code[group->at] = (uint8_t)(code[group->at] + it);
        expect_refused(group->name, code, sizeof code, RUTHVELKA_STANDARD, "illegal opcode");
        expect_refused(group->name, code, sizeof code, ALL & ~group->feature, "illegal opcode");
        const int is_right = validate(code, sizeof code, RUTHVELKA_STANDARD, text, &report) == RUTHVELKA_REFUSED && !report.missing_features
            && (validate(code, sizeof code, ALL, text, NULL) == RUTHVELKA_VALID || memcmp(text, "illegal opcode", 14));
        if (!is_right) printf("wrong: %s, with its feature or without\n", group->name), wrong++;
    }
}

static void try_left_out(void) {
    static const struct group groups[] = {{"an operator of stack switching", RUTHVELKA_STACK_SWITCHING_OPERATORS, {0xe0}, 0, 7},
        {"ref.get_desc, or a cast or a branch by a descriptor", RUTHVELKA_DESCRIPTOR_OPERATORS, {0xfb, 0x22}, 1, 5},
        {"memory.discard", RUTHVELKA_MEMORY_CONTROL, {0xfc, 0x12}, 1, 1}, {"an operator of wide arithmetic", RUTHVELKA_WIDE_ARITHMETIC, {0xfc, 0x13}, 1, 4},
        {"an atomic access to a global, a table, a structure or an array", RUTHVELKA_SHARED_ATOMIC_OPERATORS, {0xfe, 0x4f}, 1, 35}};
    static const uint8_t none[][2] = {{0xe7, 0x00}, {0xfb, 0x27}, {0xfc, 0x17}, {0xfe, 0x73}};
    for (size_t it = 0; it < sizeof groups / sizeof *groups; it++) try_group(&groups[it]);
    for (size_t it = 0; it < sizeof none / sizeof *none; it++) expect_refused("an opcode that none has", none[it], 2, ALL, "illegal opcode");
}

/* Each is valid under all features, and refused without its own. */
static void try_opt_in(void) {
    static const char vectors[] = "vector operators are not served", atomics[] = "atomic operators are not served", legacy[] = "illegal opcode 0x06";
    static const struct {
        const char *name;
        uint64_t feature;
        const char *why;
        uint8_t length, code[6];
    } operators[] = {{"i32x4.add", RUTHVELKA_VECTOR_OPERATORS, vectors, 3, {0xfd, 0xae, 0x01}},
        {"i8x16.relaxed_swizzle", RUTHVELKA_VECTOR_OPERATORS, vectors, 3, {0xfd, 0x80, 0x02}},
        {"v128.load", RUTHVELKA_VECTOR_OPERATORS, vectors, 4, {0xfd, 0x00, 0x00, 0x00}},
        {"atomic.fence", RUTHVELKA_ATOMIC_OPERATORS, atomics, 3, {0xfe, 0x03, 0x00}},
        {"i32.atomic.load", RUTHVELKA_ATOMIC_OPERATORS, atomics, 4, {0xfe, 0x10, 0x02, 0x00}},
        {"pause", RUTHVELKA_SHARED_ATOMIC_OPERATORS, "illegal opcode 0xfe 4", 2, {0xfe, 0x04}},
        {"try", RUTHVELKA_LEGACY_EXCEPTIONS, legacy, 3, {0x06, 0x40, 0x0b}},
        {"try and rethrow", RUTHVELKA_LEGACY_EXCEPTIONS, legacy, 6, {0x06, 0x40, 0x19, 0x09, 0x00, 0x0b}},
        {"try and delegate", RUTHVELKA_LEGACY_EXCEPTIONS, legacy, 4, {0x06, 0x40, 0x18, 0x00}},
        {"i64.add128", RUTHVELKA_WIDE_ARITHMETIC, "illegal opcode 0xfc 19", 2, {0xfc, 0x13}},
        {"i64.mul_wide_u", RUTHVELKA_WIDE_ARITHMETIC, "illegal opcode 0xfc 22", 2, {0xfc, 0x16}},
        {"memory.discard", RUTHVELKA_MEMORY_CONTROL, "illegal opcode 0xfc 18", 3, {0xfc, 0x12, 0x00}}};

    for (size_t it = 0; it < sizeof operators / sizeof *operators; it++) {
        char text[64];
        expect_refused(operators[it].name, operators[it].code, operators[it].length, ALL & ~operators[it].feature, operators[it].why);
        expect_refused(operators[it].name, operators[it].code, operators[it].length, RUTHVELKA_STANDARD, operators[it].why);
        if (validate(operators[it].code, operators[it].length, ALL, text, NULL) == RUTHVELKA_VALID) continue;
        printf("wrong: %s is refused\n", operators[it].name);
        wrong++;
    }
}

/* v128.const, shared memories and continuation types are none of them, and a component is. */
static void try_others(void) {
    static const uint8_t constant[18] = {0xfd, 0x0c}, component[] = {0x00, 0x61, 0x73, 0x6d, 0x0d, 0x00, 0x01, 0x00},
        shared[] = {0x00, 0x61, 0x73, 0x6d, 0x01, 0x00, 0x00, 0x00, 0x05, 0x04, 0x01, 0x03, 0x01, 0x02},
        continuation[] = {0x00, 0x61, 0x73, 0x6d, 0x01, 0x00, 0x00, 0x00, 0x01, 0x06, 0x02, 0x60, 0x00, 0x00, 0x5d, 0x00};
    char text[64];
    const int are_right = validate(constant, sizeof constant, RUTHVELKA_STANDARD, text, NULL) == RUTHVELKA_VALID
        && ruthvelka_validate(shared, sizeof shared, RUTHVELKA_STANDARD, NULL, 0, NULL) == RUTHVELKA_VALID
        && ruthvelka_validate(shared, sizeof shared, RUTHVELKA_STANDARD & ~RUTHVELKA_THREADS, NULL, 0, NULL) == RUTHVELKA_REFUSED
        && ruthvelka_validate(continuation, sizeof continuation, ALL, NULL, 0, NULL) == RUTHVELKA_VALID
        && ruthvelka_validate(continuation, sizeof continuation, RUTHVELKA_STANDARD, NULL, 0, NULL) == RUTHVELKA_REFUSED
        && ruthvelka_validate(component, sizeof component, ALL, NULL, 0, NULL) == RUTHVELKA_REFUSED;
    if (!are_right) printf("wrong: v128.const, a shared memory, a continuation type or a component\n"), wrong++;
}

/* A function type of so many parameters. */
static uint32_t validate_parameters(size_t count, uint64_t features, char text[64], struct ruthvelka_report *report) {
    static const uint8_t front[] = {0x00, 0x61, 0x73, 0x6d, 0x01, 0x00, 0x00, 0x00, 0x01, 0, 0, 0x01, 0x60, 0, 0};
    uint8_t module[1100] = {0};
    const size_t length = count + 5;
    memcpy(module, front, sizeof front);
    module[9] = (uint8_t)(length % 128 + 128), module[10] = (uint8_t)(length / 128);
    module[13] = (uint8_t)(count % 128 + 128), module[14] = (uint8_t)(count / 128);
    memset(module + 15, 0x7f, count);
    return ruthvelka_validate(module, 16 + count, features, text, 64, report);
}

static void try_limits(void) {
    static const char why[] = "function params size is out of bounds";
    struct ruthvelka_report report;
    char text[64];
    const int are_right = validate_parameters(1000, RUTHVELKA_STANDARD | RUTHVELKA_CRATE_LIMITS, text, NULL) == RUTHVELKA_VALID
        && validate_parameters(1001, RUTHVELKA_STANDARD, text, NULL) == RUTHVELKA_VALID
        && validate_parameters(1001, ALL, text, NULL) == RUTHVELKA_VALID
        && validate_parameters(1001, RUTHVELKA_STANDARD | RUTHVELKA_CRATE_LIMITS, text, &report) == RUTHVELKA_REFUSED
        && report.missing_features == 0 && !memcmp(text, why, sizeof why - 1);
    if (!are_right) printf("wrong: the limit of parameters\n"), wrong++;
}

int main(void) {
    try_left_out();
    try_opt_in();
    try_others();
    try_limits();
    printf("%ld wrong answers about what is left out\n", wrong);
    return wrong != 0;
}
