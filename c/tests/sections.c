/* Where custom sections and bodies lie, and names of functions: each field, with each room, null pointers, wrong calls, and each request for memory
   refused in turn. All that is expected was written from the bytes by hand. */
#include "handles.h"

enum { NONE = 22 };

/* Two functions, and five custom sections: "abc" twice, "name" twice and "" once. */
static const uint8_t parts[] = {0x00, 0x61, 0x73, 0x6d, 0x01, 0x00, 0x00, 0x00,
    /* byte 8: "abc" with two bytes */
    0x00, 0x06, 0x03, 'a', 'b', 'c', 0x01, 0x02,
    /* 16: a type, and two functions of it */
    0x01, 0x04, 0x01, 0x60, 0x00, 0x00, 0x03, 0x03, 0x02, 0x00, 0x00,
    /* 27: their bodies, of two and four bytes */
    0x0a, 0x09, 0x02, 0x02, 0x00, 0x0b, 0x04, 0x00, 0x01, 0x01, 0x0b,
    /* 38: "abc" with one byte, whose size is written in two */
    0x00, 0x85, 0x00, 0x03, 'a', 'b', 'c', 0x07,
    /* 46: "name": that of the module, and of both functions */
    0x00, 0x17, 0x04, 'n', 'a', 'm', 'e', 0x00, 0x02, 0x01, 'm', 0x01, 0x0c, 0x02, 0x00, 0x03, 'o', 'n', 'e', 0x01, 0x04, 't', 0x0a, 'w', 'o',
    /* 71: another one, for function 0 and function 7 */
    0x00, 0x0e, 0x04, 'n', 'a', 'm', 'e', 0x01, 0x07, 0x02, 0x00, 0x01, 'x', 0x07, 0x01, 'y',
    /* 87: "" with nothing */
    0x00, 0x01, 0x00};
#define SECTION(first, name, length, data, behind) \
    {.size = 48, .start = first, .name_start = name, .name_length = length, .data_start = data, .end = behind}
static const struct ruthvelka_custom_section sections_of_parts[] = {SECTION(10, 11, 3, 14, 16), SECTION(41, 42, 3, 45, 46),
    SECTION(48, 49, 4, 53, 71), SECTION(73, 74, 4, 78, 87), SECTION(89, 90, 0, 90, 90)};
static const struct ruthvelka_body bodies_of_parts[] = {{24, 31, 33}, {24, 34, 38}};
#define SECTIONS 5
#define BODIES 2

/* The same beginning with one custom section "name", whose parts are these. */
struct named {
    const char *what;
    const uint8_t *parts;
    size_t length;
    uint32_t function, status;
    const char *name;
};
#define PARTS(...) (const uint8_t[]){__VA_ARGS__}, sizeof((const uint8_t[]){__VA_ARGS__})
static const struct named names[] = {
    {"no parts", PARTS(0x00, 0x00), 0, NONE, ""},
    {"a part that is cut off", PARTS(0x01, 0x05, 0x01, 0x00, 0x01, 'a'), 0, NONE, ""},
    {"an empty list", PARTS(0x01, 0x01, 0x00), 0, NONE, ""},
    {"an empty name", PARTS(0x01, 0x03, 0x01, 0x00, 0x00), 0, DONE, ""},
    {"the first part has it", PARTS(0x01, 0x04, 0x01, 0x00, 0x01, 'a', 0x01, 0x04, 0x01, 0x00, 0x01, 'b'), 0, DONE, "a"},
    {"only the first part is read", PARTS(0x01, 0x01, 0x00, 0x01, 0x04, 0x01, 0x00, 0x01, 'b'), 0, NONE, ""},
    {"other parts come first", PARTS(0x02, 0x01, 0x00, 0x00, 0x02, 0x01, 'm', 0x01, 0x04, 0x01, 0x03, 0x01, 'c'), 3, DONE, "c"},
    {"the first name is taken", PARTS(0x01, 0x07, 0x02, 0x00, 0x01, 'a', 0x00, 0x01, 'b'), 0, DONE, "a"},
    {"names out of order", PARTS(0x01, 0x07, 0x02, 0x05, 0x01, 'a', 0x01, 0x01, 'b'), 1, DONE, "b"},
    {"a name before one that is cut off", PARTS(0x01, 0x06, 0x02, 0x00, 0x01, 'a', 0x01, 0x09), 0, DONE, "a"},
    {"one that is cut off", PARTS(0x01, 0x06, 0x02, 0x00, 0x01, 'a', 0x01, 0x09), 1, NONE, ""},
    {"a name behind one that is no text", PARTS(0x01, 0x07, 0x02, 0x00, 0x01, 0xff, 0x01, 0x01, 'b'), 1, NONE, ""},
    {"one that is no text", PARTS(0x01, 0x04, 0x01, 0x00, 0x01, 0xff), 0, NONE, ""},
    {"a name behind as many as are counted", PARTS(0x01, 0x07, 0x01, 0x00, 0x01, 'a', 0x01, 0x01, 'b'), 1, NONE, ""},
    {"a function that isn't there", PARTS(0x01, 0x08, 0x01, 0xff, 0xff, 0xff, 0xff, 0x0f, 0x01, 'z'), 4294967295u, DONE, "z"}};

/* Room for more than there is, with its size set in the first item, and 7 in every other byte. */
static struct ruthvelka_custom_section sections[SECTIONS + 2];
static struct ruthvelka_body bodies[BODIES + 2];
static char text[16];
static uint64_t count;

static void clear(void) {
    memset(sections, 7, sizeof sections), memset(bodies, 7, sizeof bodies), memset(text, 7, sizeof text);
    sections[0].size = sizeof sections[0], bodies[0].size = sizeof bodies[0];
    count = 7;
}

static int is_left(const void *from, const void *end) {
    for (const char *it = from; it != end; it++)
        if (*it != 7) return 0;
    return 1;
}

/* Whether nothing was told: the count is 0, and no array has changed. */
static int is_nothing_told(void) {
    return count == 0 && sections[0].size == sizeof sections[0] && bodies[0].size == sizeof bodies[0]
        && is_left((char *)sections + 8, sections + SECTIONS + 2) && is_left((char *)bodies + 8, bodies + BODIES + 2) && is_left(text, text + sizeof text);
}

static void find_all(void) {
    for (size_t room = 0; room <= SECTIONS + 1; room++) {
        const size_t most = room < SECTIONS ? room : SECTIONS;
        clear();
        expect("custom sections", ruthvelka_custom_sections(parts, sizeof parts, &count, room ? sections : NULL, room) == DONE && count == SECTIONS);
        expect("each custom section", !room || !memcmp(sections, sections_of_parts, most * sizeof *sections));
        expect("no custom section behind them", is_left(room ? (char *)(sections + most) : (char *)sections + 8, sections + SECTIONS + 2));
    }
    for (size_t room = 0; room <= BODIES + 1; room++) {
        const size_t most = room < BODIES ? room : BODIES;
        clear();
        expect("bodies", ruthvelka_bodies(parts, sizeof parts, &count, room ? bodies : NULL, room) == DONE && count == BODIES);
        expect("each body", !room || !memcmp(bodies, bodies_of_parts, most * sizeof *bodies));
        expect("no body behind them", is_left(room ? (char *)(bodies + most) : (char *)bodies + 8, bodies + BODIES + 2));
    }
    for (size_t room = 0; room <= 6; room++) {
        const size_t most = room < 4 ? room : 4;
        clear();
        expect("a name", ruthvelka_function_name(parts, sizeof parts, 1, &count, room ? text : NULL, room) == DONE && count == 4);
        expect("its bytes", !memcmp(text, "t\nwo", most) && is_left(text + most, text + sizeof text));
    }
    clear();
    expect("another name", ruthvelka_function_name(parts, sizeof parts, 0, &count, text, 3) == DONE && count == 3 && !memcmp(text, "one", 3));
    clear();
    expect("one of another section", ruthvelka_function_name(parts, sizeof parts, 7, &count, text, 3) == NONE && is_nothing_told());
    clear();
    expect("no count", ruthvelka_custom_sections(parts, sizeof parts, NULL, sections, 1) == DONE
        && ruthvelka_bodies(parts, sizeof parts, NULL, bodies, 1) == DONE
        && ruthvelka_function_name(parts, sizeof parts, 0, NULL, text, 3) == DONE && !memcmp(text, "one", 3));
}

static void find_names(void) {
    for (size_t i = 0; i < sizeof names / sizeof *names; i++) {
        const struct named *it = &names[i];
        uint8_t module[64] = {0x00, 0x61, 0x73, 0x6d, 0x01, 0x00, 0x00, 0x00, 0x00, (uint8_t)(5 + it->length), 0x04, 'n', 'a', 'm', 'e'};
        memcpy(module + 15, it->parts, it->length);
        clear();
        const uint32_t status = ruthvelka_function_name(module, 15 + it->length, it->function, &count, text, sizeof text);
        expect(it->what, status == it->status && count == strlen(it->name) && !memcmp(text, it->name, strlen(it->name)));
        expect("no more of a name", is_left(text + strlen(it->name), text + sizeof text));
    }
}

/* Modules that aren't valid, but are divided as one; and bytes that aren't. */
static void find_in_others(void) {
    clear();
    expect("a wrong body", ruthvelka_bodies(wrong_body, sizeof wrong_body, &count, bodies, 1) == DONE && count == 1 && bodies[0].start == 31
        && bodies[0].end == 35 && bodies[0].size == 24);
    clear();
    expect("no custom sections", ruthvelka_custom_sections(many, sizeof many, &count, sections, 1) == DONE && is_nothing_told());
    clear();
    expect("no bodies", ruthvelka_bodies(parts, 8, &count, bodies, 1) == DONE && is_nothing_told());
    for (size_t length = 0; length < sizeof parts; length++) {
        /* at 27 two functions have no bodies */
        const int is_end = length == 8 || length == 16 || length == 22 || length == 38 || length == 46 || length == 71 || length == 87;
        clear();
        const uint32_t wanted = is_end ? DONE : REFUSED;
        expect("a front of the module", ruthvelka_custom_sections(parts, length, &count, sections, 1) == wanted);
        if (is_end) continue;
        expect("what is cut off has nothing", is_nothing_told());
        count = 7;
        expect("nor bodies", ruthvelka_bodies(parts, length, &count, bodies, 1) == REFUSED && is_nothing_told());
        count = 7;
        expect("nor names", ruthvelka_function_name(parts, length, 0, &count, text, sizeof text) == REFUSED && is_nothing_told());
    }
}

static void call_wrongly(void) {
    const size_t large = (size_t)PTRDIFF_MAX + 1;
    clear();
    expect("null bytes", ruthvelka_custom_sections(NULL, 1, &count, sections, 1) == WRONG && is_nothing_told()), count = 7;
    expect("null bytes of bodies", ruthvelka_bodies(NULL, 1, &count, bodies, 1) == WRONG && is_nothing_told()), count = 7;
    expect("null bytes of a name", ruthvelka_function_name(NULL, 1, 0, &count, text, 1) == WRONG && is_nothing_told()), count = 7;
    expect("no bytes", ruthvelka_custom_sections(NULL, 0, &count, sections, 1) == REFUSED && is_nothing_told()), count = 7;
    expect("no bytes of bodies", ruthvelka_bodies(NULL, 0, &count, bodies, 1) == REFUSED && is_nothing_told()), count = 7;
    expect("no bytes of a name", ruthvelka_function_name(NULL, 0, 0, &count, text, 1) == REFUSED && is_nothing_told()), count = 7;
    expect("too many bytes", ruthvelka_custom_sections(parts, large, &count, sections, 1) == WRONG && is_nothing_told()), count = 7;
    expect("too many bytes of bodies", ruthvelka_bodies(parts, large, &count, bodies, 1) == WRONG && is_nothing_told()), count = 7;
    expect("too many bytes of a name", ruthvelka_function_name(parts, large, 0, &count, text, 1) == WRONG && is_nothing_told()), count = 7;
    expect("null sections", ruthvelka_custom_sections(parts, sizeof parts, &count, NULL, 1) == WRONG && is_nothing_told()), count = 7;
    expect("null bodies", ruthvelka_bodies(parts, sizeof parts, &count, NULL, 1) == WRONG && is_nothing_told()), count = 7;
    expect("a null name", ruthvelka_function_name(parts, sizeof parts, 0, &count, NULL, 1) == WRONG && is_nothing_told()), count = 7;
    expect("too much room", ruthvelka_custom_sections(parts, sizeof parts, &count, sections, (size_t)PTRDIFF_MAX / sizeof *sections + 1) == WRONG
        && is_nothing_told()), count = 7;
    expect("too much room for bodies", ruthvelka_bodies(parts, sizeof parts, &count, bodies, (size_t)PTRDIFF_MAX / sizeof *bodies + 1) == WRONG
        && is_nothing_told()), count = 7;
    expect("too much room for a name", ruthvelka_function_name(parts, sizeof parts, 0, &count, text, large) == WRONG && is_nothing_told()), count = 7;
    for (size_t size = 0; size < 64; size += 8) {
        clear();
        sections[0].size = size;
        const uint32_t status = ruthvelka_custom_sections(parts, sizeof parts, &count, sections, SECTIONS);
        expect("another size of a section", (status == DONE) == (size == 48) && (status == WRONG) == (size != 48) && sections[0].size == size);
        expect("another size has nothing", size == 48 || (count == 0 && is_left((char *)sections + 8, sections + SECTIONS + 2)));
        bodies[0].size = size, count = 7;
        const uint32_t other = ruthvelka_bodies(parts, sizeof parts, &count, bodies, BODIES);
        expect("another size of a body", (other == DONE) == (size == 24) && (other == WRONG) == (size != 24) && bodies[0].size == size);
        expect("another size has no bodies", size == 24 || (count == 0 && is_left((char *)bodies + 8, bodies + BODIES + 2)));
    }
}

/* Memory of calls without a handle. */
static struct arena arena;

static void *take_any(size_t size) {
    return take(&arena, size);
}

static void *resize_any(void *block, size_t size) {
    return resize(&arena, block, size);
}

static void give_back_any(void *block) {
    give_back(&arena, block);
}

static void refuse_memory(void) {
    arena = (struct arena){0, 0, -1};
    ruthvelka_set_allocator(take_any, resize_any, give_back_any);
    clear();
    expect("memory for sections", ruthvelka_custom_sections(parts, sizeof parts, &count, sections, SECTIONS) == DONE && !arena.blocks);
    const long for_sections = arena.requests;
    expect("memory for bodies", ruthvelka_bodies(parts, sizeof parts, &count, bodies, BODIES) == DONE && !arena.blocks);
    const long for_bodies = arena.requests - for_sections;
    expect("both want some", for_sections > 0 && for_bodies > 0);
    for (long at = 0; at < for_sections; at++) {
        clear(), arena = (struct arena){0, 0, at};
        expect("refused memory for sections", ruthvelka_custom_sections(parts, sizeof parts, &count, sections, SECTIONS) == NO_MEMORY
            && is_nothing_told() && !arena.blocks);
    }
    for (long at = 0; at < for_bodies; at++) {
        clear(), arena = (struct arena){0, 0, at};
        expect("refused memory for bodies", ruthvelka_bodies(parts, sizeof parts, &count, bodies, BODIES) == NO_MEMORY && is_nothing_told()
            && !arena.blocks);
    }
    clear(), arena = (struct arena){0, 0, 0};
    expect("a name wants no memory", ruthvelka_function_name(parts, sizeof parts, 0, &count, text, sizeof text) == DONE && !arena.requests);
    ruthvelka_set_allocator(NULL, NULL, NULL);
}

int main(void) {
    find_all();
    find_names();
    find_in_others();
    call_wrongly();
    refuse_memory();
    printf("%ld wrong answers on parts of modules\n", wrong);
    return wrong != 0;
}
