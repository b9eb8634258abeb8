/* Four threads make each call that validates side by side, on the same bytes, and each has the same answer as one alone. */
#include <pthread.h>
#include <ruthvelka.h>
#include <stdio.h>
#include <string.h>

/* A module that imports and exports a function of type [i32] -> [f64]; and the same cut off. */
static const uint8_t module[] = {0, 'a', 's', 'm', 1, 0, 0, 0, 1, 6, 1, 0x60, 1, 0x7f, 1, 0x7c, 2, 7, 1, 1, 'm', 1, 'f', 0, 0, 7, 5, 1, 1, 'g', 0, 0};

/* Whether one call of each kind is right. */
static int is_right(size_t length, int is_valid) {
    const struct ruthvelka_bytes modules[] = {{module, sizeof module}, {module, length}};
    const uint32_t verdict = is_valid ? RUTHVELKA_VALID : RUTHVELKA_REFUSED;
    struct ruthvelka_query queries[2] = {{RUTHVELKA_MAY_BE_GIVEN, 0, 0, 1, 0, 7}, {RUTHVELKA_IS_SUBTYPE, 1, 0, 0, 0, 7}};
    struct ruthvelka_extern import = {0}, export = {0};
    struct ruthvelka_report report;
    uint32_t id = 7, ids[2] = {7, 7};
    char text[64], names[3] = "---";
    int all = ruthvelka_validate(module, length, RUTHVELKA_STANDARD, text, sizeof text, &report) == verdict
        && (report.message_length == 0) == is_valid;
    all &= ruthvelka_validate_with_ids(module, length, RUTHVELKA_STANDARD, NULL, 0, &report, &id, 1, NULL, 0) == verdict && id == (is_valid ? 0 : 7);
    all &= ruthvelka_validate_with_externs(module, length, RUTHVELKA_STANDARD, NULL, 0, &report, &import, 1, &export, 1, names, 3) == verdict
        && !memcmp(names, is_valid ? "mfg" : "---", 3) && export.name_start == (is_valid ? 2 : 0);
    all &= ruthvelka_validate_list(modules, 2, RUTHVELKA_STANDARD, NULL, 0, ids, 2, NULL, 0) == RUTHVELKA_VALID && ids[1] == (is_valid ? 0 : 7);
    all &= ruthvelka_validate_list_with_queries(modules, 2, RUTHVELKA_STANDARD, NULL, 0, queries, 2) == RUTHVELKA_VALID
        && queries[0].answer == (is_valid ? RUTHVELKA_YES : RUTHVELKA_UNKNOWN) && queries[1].answer == queries[0].answer;
    return all;
}

static void *work(void *wrong) {
    for (size_t i = 0; i < 500; i++) *(int *)wrong += !is_right(sizeof module - i % 2, i % 2 == 0);
    return NULL;
}

int main(void) {
    pthread_t threads[4];
    int wrong[4] = {0};
    for (int i = 0; i < 4; i++)
        if (pthread_create(&threads[i], NULL, work, &wrong[i])) return 2;
    for (int i = 0; i < 4; i++) pthread_join(threads[i], NULL);
    const int all = wrong[0] + wrong[1] + wrong[2] + wrong[3];
    printf("%d wrong answers in four threads\n", all);
    return all != 0;
}
