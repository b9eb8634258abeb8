/* A life of a validator and of types from it, over an arena that refuses each request in turn: the call that wanted it says so, or gives the right
   answer without a message; what wasn't made isn't there; what was made before stays; and all memory is given back. */
#include "handles.h"

static struct arena arena;
static const struct ruthvelka_allocator over = OVER(&arena);
/* How many calls of this life said that memory was refused, and whether a message was left out. */
static int refusals, is_message_left_out;

/* A call that makes what a handle then holds, or says that there is no memory and leaves nothing there. */
static int is_made(const char *what, uint32_t status, uint32_t made, const void *handle) {
    expect(what, status == made ? !is_nothing(handle) : status == NO_MEMORY && is_nothing(handle));
    refusals += status == NO_MEMORY;
    return status == made;
}

/* Whether the validator went on behind a call for which memory was refused. */
static int goes_on(struct ruthvelka_validator *validator) {
    const uint32_t status = ruthvelka_validator_reset(validator);
    expect("it goes on, or has failed", status == DONE || (status == FAILED && refusals));
    return status == DONE;
}

static void use_types(struct ruthvelka_types *types, struct ruthvelka_types *others) {
    uint32_t ids[3] = {7, 7, 7};
    expect("ids want no memory", ruthvelka_types_ids(types, NULL, ids, 3, NULL, 0) == DONE && ids[0] == 0 && ids[2] == 2);
    expect("questions want no memory", ruthvelka_types_is_subtype(types, 2, 2));
    if (!is_nothing(others)) expect("what may be given", ruthvelka_types_entity_may_be_given(types, 0, others, 0));
}

static void refuse_body(struct ruthvelka_validator *validator) {
    struct ruthvelka_outcome outcome = {.size = sizeof outcome};
    char text[sizeof WRONG_BODY];
    const uint32_t status = ruthvelka_validator_validate(validator, wrong_body, sizeof wrong_body, text, sizeof text, &outcome, NULL);
    expect("a wrong body", (status == REFUSED || status == NO_MEMORY) && outcome.status == status);
    refusals += status == NO_MEMORY;
    if (status != REFUSED) return;
    is_message_left_out = !outcome.message_length;
    expect("where it is wrong", outcome.offset == 34 && outcome.function == 1);
    expect("its message", is_message_left_out || (outcome.message_length == sizeof WRONG_BODY - 1 && !memcmp(text, WRONG_BODY, sizeof WRONG_BODY - 1)));
}

static void live(void) {
    struct ruthvelka_validator validator = NOTHING;
    struct ruthvelka_types types = NOTHING, others = NOTHING, copy = NOTHING;
    if (!is_made("a validator", ruthvelka_validator_new(&validator, STANDARD, &over), DONE, &validator)) return;
    if (is_made("many", ruthvelka_validator_validate(&validator, many, sizeof many, NULL, 0, NULL, &types), VALID, &types) || goes_on(&validator)) {
        is_made("user", ruthvelka_validator_validate(&validator, user, sizeof user, NULL, 0, NULL, &others), VALID, &others);
        if (goes_on(&validator)) refuse_body(&validator);
        if (!is_nothing(&types)) {
            use_types(&types, &others);
            if (is_made("a copy", ruthvelka_types_retain(&types, &copy), DONE, &copy)) use_types(&copy, &others);
        }
    }
    ruthvelka_validator_free(&validator);
    if (!is_nothing(&types)) use_types(&types, &others);
    ruthvelka_types_release(&types), ruthvelka_types_release(&others), ruthvelka_types_release(&copy);
}

int main(void) {
    long all, told = 0;
    arena.refuse_at = -1;
    live();
    all = arena.requests;
    expect("nothing was refused", !refusals && !is_message_left_out && !arena.blocks && all > 20);
    for (long at = 0; at < all; at++) {
        arena = (struct arena){0, 0, at};
        refusals = is_message_left_out = 0;
        live();
        told += refusals || is_message_left_out;
        expect("all memory is given back", !arena.blocks);
    }
    expect("each refusal is told of", told == all);
    printf("%ld requests, each refused in turn; %ld wrong answers of handles\n", all, wrong);
    return wrong != 0;
}
