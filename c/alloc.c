/* Where the library takes memory from: the three functions that its proved part calls, over the allocator of the handle that a call is on; or, in a
   call without a handle, over malloc, realloc and free, or over those that the host set by ruthvelka_set_allocator. */
#include "internal.h"

#include <stdlib.h>

static uint8_t nothing;
static void *(*host_allocate)(size_t size) = malloc;
static void *(*host_resize)(void *block, size_t size) = realloc;
static void (*host_release)(void *block) = free;

/* The allocator of the call that this thread is in, or null. */
static __thread const struct ruthvelka_allocator *lent;

void ruthvelka_set_allocator(void *(*allocate)(size_t size), void *(*resize)(void *block, size_t size), void (*release)(void *block)) {
    const bool is_whole = allocate && resize && release;
    host_allocate = is_whole ? allocate : malloc;
    host_resize = is_whole ? resize : realloc;
    host_release = is_whole ? release : free;
}

static void *standard_allocate(void *context, size_t size) {
    (void)context;
    return malloc(size);
}

static void *standard_resize(void *context, void *block, size_t size) {
    (void)context;
    return realloc(block, size);
}

static void standard_release(void *context, void *block) {
    (void)context;
    free(block);
}

const struct ruthvelka_allocator ruthvelka_standard_allocator = {sizeof ruthvelka_standard_allocator, NULL, standard_allocate,
    standard_resize, standard_release};

const struct ruthvelka_allocator *ruthvelka_lend_allocator(const struct ruthvelka_allocator *allocator) {
    const struct ruthvelka_allocator *const before = lent;
    lent = allocator;
    return before;
}

static struct rattle_given given(uint8_t *place) {
    return (struct rattle_given){place != NULL, place ? place : &nothing};
}

/* An alignment is at most 16. A block of no bytes has as many as its alignment, so that its place isn't null. */
struct rattle_given rattle_alloc(size_t size, size_t alignment) {
    const size_t wanted = size ? size : alignment;
    return given(lent ? lent->allocate(lent->context, wanted) : host_allocate(wanted));
}

struct rattle_given rattle_realloc(uint8_t *block, size_t old_size, size_t size, size_t alignment) {
    const size_t wanted = size ? size : alignment;
    (void)old_size;
    return given(lent ? lent->resize(lent->context, block, wanted) : host_resize(block, wanted));
}

void rattle_dealloc(uint8_t *block) {
    if (lent) lent->release(lent->context, block);
    else host_release(block);
}
