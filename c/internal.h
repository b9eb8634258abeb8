/* What the files of c/ share. */
#include "ruthvelka.h"

#include <stdbool.h>

/* Whether a call may be given this array: null only with no items, and no more bytes than fit an object. */
static inline bool is_array(const void *items, size_t count, size_t size) {
    return (items || !count) && count <= (size_t)PTRDIFF_MAX / size;
}

/* Whether each bit is one of a feature. */
uint64_t ruthvelka_proved_features(void);
static inline bool are_known(uint64_t features) {
    return !(features & ~ruthvelka_proved_features());
}

/* What the proved part takes memory by (alloc.c). */
struct rattle_given {
    bool is_given;
    uint8_t *place;
};
struct rattle_given rattle_alloc(size_t size, size_t alignment);
struct rattle_given rattle_realloc(uint8_t *block, size_t old_size, size_t size, size_t alignment);
void rattle_dealloc(uint8_t *block);

/* malloc, realloc and free: what a handle takes that was made without an allocator. */
extern const struct ruthvelka_allocator ruthvelka_standard_allocator;

/* From now on memory comes from this allocator in this thread, or, where it is null, from where calls without a handle take it. It gives what
   was set before. */
const struct ruthvelka_allocator *ruthvelka_lend_allocator(const struct ruthvelka_allocator *allocator);

/* Whether an outcome may be written; writes it, of a module or of none, and gives the status (handles.c). */
bool ruthvelka_may_be_told(const struct ruthvelka_outcome *it);
uint32_t ruthvelka_tell(struct ruthvelka_outcome *to, uint32_t status, const struct ruthvelka_report *report);
uint32_t ruthvelka_tell_nothing(struct ruthvelka_outcome *to, uint32_t status);
