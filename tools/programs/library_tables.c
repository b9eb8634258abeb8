/* library_tables WAY FILE: what the calls of ruthvelka.h on a whole module take, under the standard features.

   `check` validates it, `tables` has the side tables of all its bodies told besides, and `neither` only reads the file: each once, printing nothing.
   `times` makes both calls fifteen times in turns, and prints how many bodies and entries there are and the least nanoseconds of processor time of each.
   The status is 1 where the module is refused, and 2 for trouble. tools/bench_side_tables compiles and calls it. */
#define _POSIX_C_SOURCE 199309L
#include <stdint.h>
#include <stdio.h>
#include <stdlib.h>
#include <string.h>
#include <time.h>

#include "ruthvelka.h"

#define USAGE "usage: library_tables check|tables|neither|times FILE"

static uint8_t *bytes;
static size_t length;

static struct ruthvelka_side_tables totals = {sizeof totals, sizeof(struct ruthvelka_body_table), sizeof(struct ruthvelka_side_entry), 0, 0};
static struct ruthvelka_body_table *tables;
static struct ruthvelka_side_entry *entries;

static void stop(const char *why) {
    fprintf(stderr, "library_tables: %s\n", why);
    exit(2);
}

static void read_file(const char *path) {
    FILE *file = fopen(path, "rb");
    if (!file || (fgetc(file) == EOF && ferror(file)) || fseek(file, 0, SEEK_END)) stop("the file can't be read");
    const long end = ftell(file);
    if (end < 0 || fseek(file, 0, SEEK_SET)) stop("the file can't be read");
    length = (size_t)end;
    bytes = malloc(length + 1);
    if (!bytes) stop("out of memory");
    if (fread(bytes, 1, length, file) != length) stop("the file can't be read");
    fclose(file);
}

/* There is room for whatever is told. */
static void make_room(void) {
    tables = calloc(length + 1, sizeof *tables);
    entries = calloc(length + 1, sizeof *entries);
    if (!tables || !entries) stop("out of memory");
}

static void want(uint32_t status, uint32_t wanted) {
    if (status == RUTHVELKA_STATUS_REFUSED) exit(1);
    if (status != wanted) stop("a call failed");
}

static void check(void) { want(ruthvelka_check(bytes, length, RUTHVELKA_STANDARD, NULL, 0, NULL), RUTHVELKA_STATUS_VALID); }

static void tell(void) {
    want(ruthvelka_side_tables(bytes, length, RUTHVELKA_STANDARD, NULL, 0, NULL, &totals, tables, length, entries, length), RUTHVELKA_STATUS_DONE);
}

/* The nanoseconds of processor time that a call takes. */
static uint64_t time_call(void (*call)(void)) {
    struct timespec start, end;
    if (clock_gettime(CLOCK_PROCESS_CPUTIME_ID, &start)) stop("there is no clock");
    call();
    if (clock_gettime(CLOCK_PROCESS_CPUTIME_ID, &end)) stop("there is no clock");
    return (uint64_t)(end.tv_sec - start.tv_sec) * 1000000000u + (uint64_t)end.tv_nsec - (uint64_t)start.tv_nsec;
}

static void print_times(void) {
    uint64_t with_tables = UINT64_MAX, alone = UINT64_MAX;
    for (int i = 0; i < 15; i++) {
        uint64_t took = time_call(tell);
        if (took < with_tables) with_tables = took;
        took = time_call(check);
        if (took < alone) alone = took;
    }
    printf("bodies %llu entries %llu tables %llu alone %llu\n", (unsigned long long)totals.tables, (unsigned long long)totals.entries,
        (unsigned long long)with_tables, (unsigned long long)alone);
}

int main(int count, char **words) {
    if (count != 3) stop(USAGE);
    read_file(words[2]);
    make_room();
    if (!strcmp(words[1], "check")) check();
    else if (!strcmp(words[1], "tables")) tell();
    else if (!strcmp(words[1], "times")) print_times();
    else if (strcmp(words[1], "neither")) stop(USAGE);
    return 0;
}
