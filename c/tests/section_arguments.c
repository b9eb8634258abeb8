/* Which arguments c/sections.c passes on. This is linked with functions in place of the proved ones, which keep what they were given: each argument
   comes as it was given, but for null pointers, in whose place something stands; no wrong call comes through; and only what was found is told. */
#include "handles.h"

/* What the last proved call was given, and what it answers. */
static struct passed {
    char name;
    const void *bytes, *items;
    size_t length, room;
    uint32_t function;
} passed;
static uint32_t status;

uint32_t ruthvelka_proved_custom_sections(const uint8_t *bytes, size_t length, uint64_t *count, struct ruthvelka_custom_section *sections, size_t room);
uint32_t ruthvelka_proved_bodies(const uint8_t *bytes, size_t length, uint64_t *count, struct ruthvelka_body *bodies, size_t room);
uint32_t ruthvelka_proved_function_name(const uint8_t *bytes, size_t length, uint32_t function, uint64_t *name_length, uint8_t *name, size_t room);

uint32_t ruthvelka_proved_custom_sections(const uint8_t *bytes, size_t length, uint64_t *count, struct ruthvelka_custom_section *sections,
    size_t room) {
    passed = (struct passed){'s', bytes, sections, length, room, 0};
    *count = 5;
    return status;
}

uint32_t ruthvelka_proved_bodies(const uint8_t *bytes, size_t length, uint64_t *count, struct ruthvelka_body *bodies, size_t room) {
    passed = (struct passed){'b', bytes, bodies, length, room, 0};
    *count = 6;
    return status;
}

uint32_t ruthvelka_proved_function_name(const uint8_t *bytes, size_t length, uint32_t function, uint64_t *name_length, uint8_t *name, size_t room) {
    passed = (struct passed){'n', bytes, name, length, room, function};
    *name_length = 7;
    return status;
}

static const uint8_t bytes[4];
static struct ruthvelka_custom_section sections[3] = {{.size = sizeof sections[0]}};
static struct ruthvelka_body bodies[3] = {{.size = sizeof bodies[0]}};
static char text[3];

/* Whether the proved call was given these, or in place of null pointers something. */
static int is_passed(char name, const void *from, size_t length, const void *items, size_t room, uint32_t function) {
    const int is_right = passed.name == name && passed.length == length && passed.room == room && passed.function == function
        && (from ? passed.bytes == from : passed.bytes != NULL) && (items ? passed.items == items : passed.items != NULL);
    passed = (struct passed){'-', NULL, NULL, 0, 0, 0};
    return is_right;
}

/* Of each call: with all that it may be given, with nothing, and with each status. */
static void pass_all(void) {
    uint64_t count = 9;
    status = DONE;
    expect("sections", ruthvelka_custom_sections(bytes, 4, &count, sections, 3) == DONE && count == 5 && is_passed('s', bytes, 4, sections, 3, 0));
    expect("bodies", ruthvelka_bodies(bytes, 4, &count, bodies, 2) == DONE && count == 6 && is_passed('b', bytes, 4, bodies, 2, 0));
    expect("a name", ruthvelka_function_name(bytes, 4, 8, &count, text, 3) == DONE && count == 7 && is_passed('n', bytes, 4, text, 3, 8));
    expect("no sections", ruthvelka_custom_sections(NULL, 0, NULL, NULL, 0) == DONE && is_passed('s', NULL, 0, NULL, 0, 0));
    expect("no bodies", ruthvelka_bodies(NULL, 0, NULL, NULL, 0) == DONE && is_passed('b', NULL, 0, NULL, 0, 0));
    expect("no name", ruthvelka_function_name(NULL, 0, 0, NULL, NULL, 0) == DONE && is_passed('n', NULL, 0, NULL, 0, 0));
    for (status = 0; status < 32; status++) {
        const uint64_t found = status == DONE;
        expect("a status of sections", ruthvelka_custom_sections(bytes, 4, &count, sections, 3) == status && count == 5 * found);
        expect("a status of bodies", ruthvelka_bodies(bytes, 4, &count, bodies, 3) == status && count == 6 * found);
        expect("a status of a name", ruthvelka_function_name(bytes, 4, 8, &count, text, 3) == status && count == 7 * found);
    }
    passed.name = '-';
}

/* No wrong call comes through: null pointers with a count, more bytes than an object can have, and items of another size. */
static void call_wrongly(void) {
    const size_t large = (size_t)PTRDIFF_MAX + 1;
    uint64_t count = 9;
    status = DONE;
    for (int it = 0; it < 2; it++) {
        const uint8_t *const from = it ? bytes : NULL;
        const size_t length = it ? large : 1;
        expect("wrong bytes of sections", ruthvelka_custom_sections(from, length, &count, sections, 3) == WRONG && !count && passed.name == '-');
        expect("wrong bytes of bodies", ruthvelka_bodies(from, length, &count, bodies, 3) == WRONG && !count && passed.name == '-');
        expect("wrong bytes of a name", ruthvelka_function_name(from, length, 0, &count, text, 3) == WRONG && !count && passed.name == '-');
        const size_t room = it ? large : 1;
        expect("wrong sections", ruthvelka_custom_sections(bytes, 4, &count, it ? sections : NULL, it ? large / sizeof *sections + 1 : 1) == WRONG
            && passed.name == '-');
        expect("wrong bodies", ruthvelka_bodies(bytes, 4, &count, it ? bodies : NULL, it ? large / sizeof *bodies + 1 : 1) == WRONG && passed.name == '-');
        expect("a wrong name", ruthvelka_function_name(bytes, 4, 0, &count, it ? text : NULL, room) == WRONG && passed.name == '-');
    }
    for (uint64_t size = 0; size < 100; size++) {
        sections[0].size = bodies[0].size = size;
        expect("another size of a section", (ruthvelka_custom_sections(bytes, 4, &count, sections, 3) == WRONG) == (size != sizeof *sections));
        expect("another size of a body", (ruthvelka_bodies(bytes, 4, &count, bodies, 3) == WRONG) == (size != sizeof *bodies));
        expect("no size of no items", ruthvelka_custom_sections(bytes, 4, &count, sections, 0) == DONE
            && ruthvelka_bodies(bytes, 4, &count, bodies, 0) == DONE);
    }
}

int main(void) {
    pass_all();
    call_wrongly();
    printf("%ld wrong arguments of calls on parts of modules\n", wrong);
    return wrong != 0;
}
