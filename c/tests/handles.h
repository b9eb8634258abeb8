/* What the tests of handles share: what is expected, and an allocator of the host's that counts its blocks and refuses one request. */
#include "modules.h"

#include <stdio.h>
#include <stdlib.h>
#include <string.h>

#define STANDARD UINT64_C(32703)
#define NOTHING RUTHVELKA_NOTHING
enum { DONE = 16, VALID, REFUSED, NO_MEMORY, FAILED, WRONG };

static long wrong;

static inline void expect(const char *what, int is_right) {
    if (is_right) return;
    printf("wrong: %s\n", what);
    wrong++;
}

/* A place that memory is taken from: how many blocks of it are out, and which request it refuses, if any. */
struct arena {
    long blocks, requests, refuse_at;
};

static inline void *take(void *context, size_t size) {
    struct arena *arena = context;
    void *block = arena->requests++ == arena->refuse_at ? NULL : malloc(size);
    arena->blocks += block != NULL;
    return block;
}

static inline void *resize(void *context, void *block, size_t size) {
    struct arena *arena = context;
    return arena->requests++ == arena->refuse_at ? NULL : realloc(block, size);
}

static inline void give_back(void *context, void *block) {
    struct arena *arena = context;
    arena->blocks -= block != NULL;
    free(block);
}

#define OVER(arena) {sizeof(struct ruthvelka_allocator), arena, take, resize, give_back}

/* Whether a handle holds nothing. */
static inline int is_nothing(const void *handle) {
    static const struct ruthvelka_types nothing = NOTHING;
    return !memcmp(handle, &nothing, sizeof nothing);
}

/* Number `number` of a row of modules: two types, the first of no parameters and the second of so many of i32, all without results. */
#define PARAMETERS 9
static inline size_t write_module(uint8_t *to, uint8_t number) {
    static const uint8_t header[] = {0x00, 0x61, 0x73, 0x6d, 0x01, 0x00, 0x00, 0x00};
    const uint8_t section[] = {0x01, (uint8_t)(7 + number), 0x02, 0x60, 0x00, 0x00, 0x60, number};
    memcpy(to, header, sizeof header);
    memcpy(to + sizeof header, section, sizeof section);
    memset(to + sizeof header + sizeof section, 0x7f, number);
    to[sizeof header + sizeof section + number] = 0x00;
    return sizeof header + sizeof section + number + 1;
}
