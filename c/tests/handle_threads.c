/* Four threads make each call of version 2 side by side, each on handles of its own, some of them over an allocator of its own; and four threads share
   the bodies of one module, each by a copy in which those of the others do nothing. */
#include <pthread.h>

#include "handles.h"

/* What each thread keeps: how many answers were wrong. `wrong` of handles.h is one for all, so it isn't used here. */
struct work {
    int number;
    long wrong;
};

static void want(struct work *work, int is_right) {
    work->wrong += !is_right;
}

static void use_types(struct work *work, struct ruthvelka_types *types, struct ruthvelka_types *others) {
    struct ruthvelka_outcome outcome = {.size = sizeof outcome};
    struct ruthvelka_extern_type imports[8] = {{.size = sizeof imports[0]}}, exports[9] = {{.size = sizeof exports[0]}};
    struct ruthvelka_signature signature = {.size = sizeof signature};
    struct ruthvelka_value_type params[1] = {{.size = sizeof params[0]}}, results[1] = {{.size = sizeof results[0]}};
    uint32_t ids[3] = {7, 7, 7}, functions[2] = {7, 7};
    char text[80];
    want(work, ruthvelka_types_ids(types, &outcome, ids, 3, functions, 2) == DONE && ids[2] == 2 && functions[0] == 2 && outcome.tags == 7);
    want(work, ruthvelka_types_externs(types, &outcome, imports, 8, exports, 9, text, sizeof text) == DONE && outcome.names_length == 65
        && imports[0].type_id == 2 && exports[1].name_length == 5 && !memcmp(text, "envfunc", 7));
    want(work, ruthvelka_types_signature(types, 2, &signature, params, 1, results, 1) == DONE && signature.params == 1 && signature.results == 1
        && params[0].kind == RUTHVELKA_I64 && results[0].kind == RUTHVELKA_I32);
    want(work, ruthvelka_types_matches(types, params, params) && !ruthvelka_types_matches(types, params, results));
    want(work, ruthvelka_types_is_subtype(types, 2, 2) && !ruthvelka_types_is_subtype(types, 0, 1));
    want(work, ruthvelka_types_entity_may_be_given(types, 0, others, 0) == RUTHVELKA_YES);
}

static void live(struct work *work, const struct ruthvelka_allocator *allocator) {
    struct ruthvelka_validator validator = NOTHING;
    struct ruthvelka_types types = NOTHING, others = NOTHING, copy = NOTHING, last = NOTHING;
    struct ruthvelka_outcome outcome = {.size = sizeof outcome};
    char text[64];
    want(work, ruthvelka_validator_new(&validator, STANDARD, allocator) == DONE);
    want(work, ruthvelka_validator_validate(&validator, many, sizeof many, NULL, 0, NULL, &types) == VALID);
    want(work, ruthvelka_validator_validate(&validator, user, sizeof user, NULL, 0, &outcome, &others) == VALID && outcome.types == 5);
    want(work, ruthvelka_validator_validate(&validator, wrong_body, sizeof wrong_body, text, sizeof text, &outcome, NULL) == REFUSED
        && outcome.function == 1 && outcome.offset == 34 && !memcmp(text, WRONG_BODY, sizeof WRONG_BODY - 1));
    want(work, ruthvelka_validator_reset(&validator) == DONE && ruthvelka_validator_types(&validator, &last) == DONE);
    want(work, ruthvelka_types_retain(&types, &copy) == DONE);
    ruthvelka_validator_free(&validator);
    use_types(work, &types, &others), use_types(work, &copy, &last);
    ruthvelka_types_release(&types), ruthvelka_types_release(&others), ruthvelka_types_release(&copy), ruthvelka_types_release(&last);
}

static void find_parts(struct work *work) {
    struct ruthvelka_custom_section sections[1] = {{.size = sizeof sections[0]}};
    struct ruthvelka_body bodies[1] = {{.size = sizeof bodies[0]}};
    static const uint8_t named[] = {0x00, 0x61, 0x73, 0x6d, 0x01, 0x00, 0x00, 0x00, 0x00, 0x0b, 0x04, 'n', 'a', 'm', 'e', 0x01, 0x04, 0x01, 0x00, 0x01, 'f'};
    uint64_t count = 7;
    char name = 7;
    want(work, ruthvelka_custom_sections(named, sizeof named, &count, sections, 1) == DONE && count == 1 && sections[0].data_start == 15
        && sections[0].end == sizeof named);
    want(work, ruthvelka_bodies(wrong_body, sizeof wrong_body, &count, bodies, 1) == DONE && bodies[0].start == 31 && bodies[0].end == 35);
    want(work, ruthvelka_function_name(named, sizeof named, 0, &count, &name, 1) == DONE && name == 'f');
    want(work, ruthvelka_check(many, sizeof many, STANDARD, NULL, 0, NULL) == VALID && ruthvelka_check(many, 9, STANDARD, NULL, 0, NULL) == REFUSED);
}

/* 64 functions of [] -> [i32], and their bodies: i32.const of their number. That of function `wrong_at` leaves two numbers. */
#define SHARED 64
static size_t write_shared(uint8_t *to, size_t wrong_at) {
    static const uint8_t header[] = {0x00, 0x61, 0x73, 0x6d, 0x01, 0x00, 0x00, 0x00, 0x01, 0x05, 0x01, 0x60, 0x00, 0x01, 0x7f, 0x03, 1 + SHARED, SHARED};
    uint8_t *at = to + sizeof header + SHARED, *size;
    memcpy(to, header, sizeof header), memset(to + sizeof header, 0, SHARED);
    *at++ = 0x0a, size = at, at += 2, *at++ = SHARED;
    for (size_t i = 0; i < SHARED; i++) {
        const uint8_t body[] = {i == wrong_at ? 6 : 4, 0x00, 0x41, (uint8_t)i % 64, 0x41, 0x00, 0x0b};
        memcpy(at, body, sizeof body);
        if (i != wrong_at) at[4] = 0x0b;
        at += i == wrong_at ? 7 : 5;
    }
    size[0] = (uint8_t)((at - size - 2) & 0x7f) | 0x80, size[1] = (uint8_t)((at - size - 2) >> 7);
    return (size_t)(at - to);
}

/* What a thread has to check: the module, where its bodies lie, and its own ones, from this number on. */
struct share {
    const uint8_t *module;
    size_t length, first, count;
    uint32_t status;
};

/* A body of the same size, of at least three bytes, that is valid for any function: no locals, `unreachable`, and `nop` up to the `end`. */
static void leave_out(uint8_t *body, size_t size) {
    memset(body, 0x01, size);
    body[0] = body[1] = 0x00, body[size - 1] = 0x0b;
}

static void *check_share(void *given) {
    struct share *share = given;
    struct ruthvelka_body bodies[SHARED] = {{.size = sizeof bodies[0]}};
    uint8_t copy[512];
    uint64_t count;
    memcpy(copy, share->module, share->length);
    share->status = ruthvelka_bodies(copy, share->length, &count, bodies, SHARED);
    if (share->status != DONE || count != SHARED) return NULL;
    for (size_t i = 0; i < SHARED; i++)
        if (i < share->first || i >= share->first + share->count) leave_out(copy + bodies[i].start, (size_t)(bodies[i].end - bodies[i].start));
    share->status = ruthvelka_check(copy, share->length, STANDARD, NULL, 0, NULL);
    return NULL;
}

/* Whether each of four shares is valid but for that with the wrong body, if there is one, and the whole is as all of them together. */
static long check_shares(size_t wrong_at) {
    uint8_t module[512];
    struct share shares[4];
    pthread_t threads[4];
    long wrong_answers = 0;
    const size_t length = write_shared(module, wrong_at);
    for (size_t i = 0; i < 4; i++) {
        shares[i] = (struct share){module, length, i * SHARED / 4, SHARED / 4, 0};
        if (pthread_create(&threads[i], NULL, check_share, &shares[i])) return 1;
    }
    for (size_t i = 0; i < 4; i++) pthread_join(threads[i], NULL);
    for (size_t i = 0; i < 4; i++) wrong_answers += shares[i].status != (uint32_t)(wrong_at / (SHARED / 4) == i ? REFUSED : VALID);
    return wrong_answers + (ruthvelka_check(module, length, STANDARD, NULL, 0, NULL) != (uint32_t)(wrong_at < SHARED ? REFUSED : VALID));
}

static void *work_alone(void *given) {
    struct work *work = given;
    struct arena arena = {0, 0, -1};
    const struct ruthvelka_allocator over = OVER(&arena);
    for (int i = 0; i < 100; i++) {
        live(work, (i + work->number) % 2 ? &over : NULL);
        find_parts(work);
    }
    want(work, !arena.blocks && arena.requests > 0);
    return NULL;
}

int main(void) {
    pthread_t threads[4];
    struct work works[4] = {{0, 0}, {1, 0}, {2, 0}, {3, 0}};
    long all = 0;
    for (int i = 0; i < 4; i++)
        if (pthread_create(&threads[i], NULL, work_alone, &works[i])) return 2;
    for (int i = 0; i < 4; i++) pthread_join(threads[i], NULL);
    for (int i = 0; i < 4; i++) all += works[i].wrong;
    for (size_t at = 0; at <= SHARED; at += 9) all += check_shares(at);
    all += check_shares(SHARED);
    printf("%ld wrong answers on handles in four threads\n", all + wrong);
    return all + wrong != 0;
}
