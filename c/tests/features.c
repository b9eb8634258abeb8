/* The proposals by their names, names by their proposals with each room, and the version. */
#include <ruthvelka.h>
#include <stdio.h>
#include <string.h>

/* Each feature, in the order of its bit. */
static const char *const names[] = {"MUTABLE_GLOBAL", "REFERENCE_TYPES", "MULTI_VALUE", "BULK_MEMORY", "SIMD", "THREADS", "SHARED_EVERYTHING_THREADS",
    "FLOATS", "MULTI_MEMORY", "EXCEPTIONS", "MEMORY64", "EXTENDED_CONST", "FUNCTION_REFERENCES", "GC", "GC_TYPES", "CUSTOM_PAGE_SIZES",
    "CUSTOM_DESCRIPTORS", "STACK_SWITCHING", "COMPONENT_MODEL", "VECTOR_OPERATORS", "ATOMIC_OPERATORS", "LEGACY_EXCEPTIONS", "CRATE_LIMITS",
    "WIDE_ARITHMETIC", "MEMORY_CONTROL", "DESCRIPTOR_OPERATORS", "SHARED_ATOMIC_OPERATORS", "STACK_SWITCHING_OPERATORS",
    "COMPACT_IMPORTS"};
#define COUNT (sizeof names / sizeof *names)
static long wrong;

static void expect(const char *what, int is_right) {
    if (is_right) return;
    printf("wrong: %s\n", what);
    wrong++;
}

/* The name is written as far as there is room, and nothing around it changes. */
static void try_room(const char *name, uint64_t bit, size_t room) {
    char to[64], right[64], what[100];
    const size_t length = strlen(name), count = length < room ? length : room;
    memset(to, '-', sizeof to), memset(right, '-', sizeof right);
    memcpy(right + 16, name, count);
    const size_t result = ruthvelka_feature_name(bit, to + 16, room);
    snprintf(what, sizeof what, "the name of %s with room for %zu", name, room);
    expect(what, result == length && !memcmp(to, right, sizeof to));
}

static void try_name(const char *name, uint64_t bit) {
    const size_t length = strlen(name), rooms[] = {0, length - 1, length, length + 1};
    expect(name, ruthvelka_feature(name, length) == bit);
    expect("a name cut off", !ruthvelka_feature(name, length - 1));
    expect("the length of a name", ruthvelka_feature_name(bit, NULL, 0) == length);
    for (int it = 0; it < 4; it++) try_room(name, bit, rooms[it]);
}

static void try_bits(void) {
    for (size_t it = 0; it < 64; it++) {
        if (it < COUNT) try_name(names[it], UINT64_C(1) << it);
        else expect("a bit of no proposal", !ruthvelka_feature_name(UINT64_C(1) << it, NULL, 0));
    }
}

/* What is no proposal, and no array. */
static void try_none(void) {
    char to[8] = "-------";
    expect("no proposal", !ruthvelka_feature("gc", 2) && !ruthvelka_feature("", 0) && !ruthvelka_feature("\xff", 1));
    expect("no name", !ruthvelka_feature(NULL, 0) && !ruthvelka_feature(NULL, 2));
    expect("a name past all memory", !ruthvelka_feature("GC", (size_t)PTRDIFF_MAX + 1) && !ruthvelka_feature("GC", SIZE_MAX));
    expect("two bits or none", !ruthvelka_feature_name(3, to, 8) && !ruthvelka_feature_name(0, to, 8));
    expect("no array with a room", !ruthvelka_feature_name(UINT64_C(1) << 13, NULL, 1));
    expect("a room past all memory", !ruthvelka_feature_name(UINT64_C(1) << 13, to, (size_t)PTRDIFF_MAX + 1));
    expect("nothing is written", !memcmp(to, "-------", 8));
}

int main(void) {
    try_bits();
    try_none();
    expect("the version", ruthvelka_version() == 1000);
    printf("%ld wrong answers about proposals\n", wrong);
    return wrong != 0;
}
