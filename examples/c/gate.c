/* gate FILE..: an admission gate. Each file is let in exactly where it is a valid module, within the limits for modules of strangers. */
#include <ruthvelka.h>

#include "files.h"

/* Prints the line of a file, and says whether it is let in. */
static int is_let_in(const char *name, const uint8_t *bytes, size_t length) {
    struct ruthvelka_outcome outcome = {.size = sizeof outcome};
    char text[256];
    switch (ruthvelka_check(bytes, length, RUTHVELKA_STANDARD | RUTHVELKA_CRATE_LIMITS, text, sizeof text, &outcome)) {
    case RUTHVELKA_STATUS_VALID:
        printf("%s: ok types %u functions %u imports %llu exports %llu\n", name, outcome.types, outcome.functions,
            (unsigned long long)outcome.imports, (unsigned long long)outcome.exports);
        return 1;
    case RUTHVELKA_STATUS_REFUSED:
        printf("%s: refused at %llu: ", name, (unsigned long long)outcome.offset);
        print_escaped(text, outcome.message_length < sizeof text ? (size_t)outcome.message_length : sizeof text);
        putchar('\n');
        return 0;
    default:
        printf("%s: out of memory\n", name);
        return 0;
    }
}

int main(int count, char **names) {
    int refused = 0;
    for (int i = 1; i < count; i++) {
        size_t length = 0;
        uint8_t *bytes = read_file(names[i], &length);
        if (!bytes) {
            fprintf(stderr, "gate: cannot read %s\n", names[i]);
            return 2;
        }
        refused |= !is_let_in(names[i], bytes, length);
        free(bytes);
    }
    return refused;
}
