/* Reading a file, and printing what a module calls something, for the examples. */
#include <stdint.h>
#include <stdio.h>
#include <stdlib.h>

/* The bytes of a file, or null. */
static uint8_t *read_file(const char *name, size_t *length) {
    FILE *file = fopen(name, "rb");
    uint8_t *bytes = NULL;
    if (!file) return NULL;
    if (!fseek(file, 0, SEEK_END)) {
        const long size = ftell(file);
        rewind(file);
        bytes = size < 0 ? NULL : malloc(size ? (size_t)size : 1);
        *length = bytes ? fread(bytes, 1, (size_t)size, file) : 0;
    }
    fclose(file);
    return bytes;
}

/* Prints a text that may hold a module's own names: `?` in place of all but the printable characters of ASCII, so that no name ends the line. */
static inline void print_escaped(const char *text, size_t length) {
    for (size_t i = 0; i < length; i++) putchar(' ' <= text[i] && text[i] <= '~' ? text[i] : '?');
}
