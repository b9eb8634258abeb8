/* The calls of ruthvelka.h that tell where parts of a module lie, over the proved ones, which want no null pointer and no length past PTRDIFF_MAX
   bytes. */
#include "internal.h"

/* The proved calls (crates/ruthvelka_c, in sections.rt). */
uint32_t ruthvelka_proved_custom_sections(const uint8_t *bytes, size_t length, uint64_t *count, struct ruthvelka_custom_section *sections,
    size_t room);
uint32_t ruthvelka_proved_bodies(const uint8_t *bytes, size_t length, uint64_t *count, struct ruthvelka_body *bodies, size_t room);
uint32_t ruthvelka_proved_function_name(const uint8_t *bytes, size_t length, uint32_t function, uint64_t *name_length, uint8_t *name, size_t room);

/* What stands where a caller gave a null pointer with a count of 0. Nothing is ever read or written there. */
static union {
    uint8_t bytes[1];
    struct ruthvelka_custom_section sections[1];
    struct ruthvelka_body bodies[1];
} none;

/* Writes the number that a call tells, which is 0 where nothing was found, and gives the status. */
static uint32_t tell_number(uint64_t *to, uint64_t number, uint32_t status) {
    if (to) *to = status == RUTHVELKA_STATUS_DONE ? number : 0;
    return status;
}

/* Whether a call may be given these arrays, whose first item has the size of each: that of the items that are written. */
static bool are_sections(const struct ruthvelka_custom_section *sections, size_t room) {
    return is_array(sections, room, sizeof *sections) && (!room || sections->size == sizeof *sections);
}

static bool are_bodies(const struct ruthvelka_body *bodies, size_t room) {
    return is_array(bodies, room, sizeof *bodies) && (!room || bodies->size == sizeof *bodies);
}

uint32_t ruthvelka_custom_sections(const uint8_t *bytes, size_t length, uint64_t *count, struct ruthvelka_custom_section *sections, size_t room) {
    uint64_t found = 0;
    if (!is_array(bytes, length, 1) || !are_sections(sections, room)) return tell_number(count, 0, RUTHVELKA_STATUS_WRONG);
    const uint32_t status = ruthvelka_proved_custom_sections(bytes ? bytes : none.bytes, length, &found, sections ? sections : none.sections, room);
    return tell_number(count, found, status);
}

uint32_t ruthvelka_bodies(const uint8_t *bytes, size_t length, uint64_t *count, struct ruthvelka_body *bodies, size_t room) {
    uint64_t found = 0;
    if (!is_array(bytes, length, 1) || !are_bodies(bodies, room)) return tell_number(count, 0, RUTHVELKA_STATUS_WRONG);
    const uint32_t status = ruthvelka_proved_bodies(bytes ? bytes : none.bytes, length, &found, bodies ? bodies : none.bodies, room);
    return tell_number(count, found, status);
}

uint32_t ruthvelka_function_name(const uint8_t *bytes, size_t length, uint32_t function, uint64_t *name_length, char *name, size_t room) {
    uint64_t found = 0;
    if (!is_array(bytes, length, 1) || !is_array(name, room, 1)) return tell_number(name_length, 0, RUTHVELKA_STATUS_WRONG);
    const uint32_t status = ruthvelka_proved_function_name(bytes ? bytes : none.bytes, length, function, &found,
        name ? (uint8_t *)name : none.bytes, room);
    return tell_number(name_length, found, status);
}
