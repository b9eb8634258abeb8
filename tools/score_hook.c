/* What a program of tools/score asks in each place: whether a mutant is on. The environment says which, and what is noted.
   SCORE_MUTANT=N    the mutant that is on
   SCORE_OTHER=V     the number that an entry of a table is read as, where N is one
   SCORE_SEEN=FILE   where places are noted: a bit for each mutant whose place is reached, and behind these a bit for each that changes
                     something there
   SCORE_SECONDS=S   processor seconds after which the program ends */
#include <fcntl.h>
#include <stdint.h>
#include <stdlib.h>
#include <sys/mman.h>
#include <sys/resource.h>
#include <unistd.h>

enum { MOST = 1 << 16 };
static uint32_t target = UINT32_MAX;
static uint64_t other;
static unsigned char *seen;
static _Bool notes;

static uint64_t number_of(const char *name, uint64_t missing) {
    const char *text = getenv(name);
    return text ? strtoull(text, 0, 10) : missing;
}

__attribute__((constructor)) static void start(void) {
    const char *file = getenv("SCORE_SEEN");
    target = (uint32_t)number_of("SCORE_MUTANT", UINT32_MAX);
    other = number_of("SCORE_OTHER", 0);
    uint64_t seconds = number_of("SCORE_SECONDS", 0);
    struct rlimit time = {seconds, seconds}, memory = {(rlim_t)6 << 30, (rlim_t)6 << 30};
    if (seconds) {
        setrlimit(RLIMIT_CPU, &time);
        setrlimit(RLIMIT_AS, &memory);
    }
    if (file) {
        int it = open(file, O_RDWR | O_CREAT, 0666);
        void *map = it >= 0 && !ftruncate(it, MOST / 4) ? mmap(0, MOST / 4, PROT_READ | PROT_WRITE, MAP_SHARED, it, 0) : MAP_FAILED;
        if (map == MAP_FAILED) _exit(99);
        seen = map;
        notes = 1;
    }
}

/* Notes that a place is reached, and whether its mutant would change something there. */
static void note(uint32_t n, _Bool changes) {
    if (!notes || n >= MOST) return;
    seen[n / 8] |= (unsigned char)(1 << n % 8);
    if (changes) seen[MOST / 8 + n / 8] |= (unsigned char)(1 << n % 8);
}

_Bool score_hook_m(uint32_t n) {
    note(n, 1);
    return n == target;
}

_Bool score_hook_b(uint32_t n, _Bool it) {
    note(n, !it);
    note(n + 1, it);
    note(n + 2, 1);
    uint32_t which = target - n;
    return which > 2 ? it : which == 0 ? 1 : which == 1 ? 0 : !it;
}

_Bool score_hook_t(uint32_t n, _Bool it) {
    note(n, !it);
    return it || n == target;
}

_Bool score_hook_f(uint32_t n, _Bool it) {
    note(n, it);
    return it && n != target;
}

static uint64_t entry(uint32_t n, uint32_t count, uint64_t it) {
    if (it >= count) return it;
    note(n + (uint32_t)it, 1);
    return n + (uint32_t)it == target ? other : it;
}

uint8_t score_hook_n8(uint32_t n, uint32_t count, uint8_t it) { return (uint8_t)entry(n, count, it); }
uint32_t score_hook_n32(uint32_t n, uint32_t count, uint32_t it) { return (uint32_t)entry(n, count, it); }
