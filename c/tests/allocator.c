/* What c/alloc.c asks the host's three functions for, and what it gives the proved calls. */
#include <ruthvelka.h>
#include <stdbool.h>
#include <stdio.h>
#include <stdlib.h>

struct rattle_given {
    bool is_given;
    uint8_t *place;
};
struct rattle_given rattle_alloc(size_t size, size_t alignment);
struct rattle_given rattle_realloc(uint8_t *block, size_t old_size, size_t size, size_t alignment);
void rattle_dealloc(uint8_t *block);

static long wrong;
/* What the host's functions were given last, and what they give. */
static size_t asked;
static void *block, *released, *given;

static void expect(const char *what, int is_right) {
    if (is_right) return;
    printf("wrong: %s\n", what);
    wrong++;
}

static void *allocate(size_t size) {
    asked = size, block = NULL;
    return given;
}

static void *resize(void *it, size_t size) {
    asked = size, block = it;
    return given;
}

static void release(void *it) {
    released = it;
}

/* malloc may give null for no bytes, so a block of none is asked for with as many as its alignment. */
static void try_requests(uint8_t *old, uint8_t *new) {
    given = new;
    struct rattle_given it = rattle_alloc(24, 8);
    expect("a block", it.is_given && it.place == new && asked == 24 && !block);
    it = rattle_alloc(0, 16);
    expect("a block of no bytes", it.is_given && it.place == new && asked == 16);
    it = rattle_realloc(old, 24, 48, 8);
    expect("a larger block", it.is_given && it.place == new && asked == 48 && block == old);
    it = rattle_realloc(old, 24, 0, 4);
    expect("a block made empty", it.is_given && it.place == new && asked == 4 && block == old);
    rattle_dealloc(old);
    expect("a block given back", released == old);
    given = NULL;
    it = rattle_alloc(24, 8);
    expect("a refused block", !it.is_given && it.place);
    it = rattle_realloc(old, 24, 48, 8);
    expect("a refused larger block", !it.is_given && it.place);
}

/* Where one of the three functions is null, none of them is called. */
static void try_malloc(void) {
    for (int it = 0; it < 3; it++) {
        ruthvelka_set_allocator(allocate, resize, release);
        ruthvelka_set_allocator(it == 0 ? NULL : allocate, it == 1 ? NULL : resize, it == 2 ? NULL : release);
        asked = 0, released = NULL;
        struct rattle_given made = rattle_alloc(24, 8);
        expect("malloc", made.is_given && !asked);
        made = rattle_realloc(made.place, 24, 48, 8);
        expect("realloc", made.is_given && !asked);
        rattle_dealloc(made.place);
        expect("free", !released);
    }
}

int main(void) {
    uint8_t old[1], new[1];
    ruthvelka_set_allocator(allocate, resize, release);
    try_requests(old, new);
    try_malloc();
    printf("%ld wrong answers about memory\n", wrong);
    return wrong != 0;
}
