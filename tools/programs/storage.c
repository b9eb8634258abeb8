// clang --target=wasm32 -O2 -mbulk-memory -msign-ext -nostdlib -Wl,--no-entry -Wl,--strip-all -Wl,--export-dynamic -fvisibility=default -o storage.wasm storage.c
typedef unsigned long size;
extern unsigned char __heap_base;
static unsigned char *next;

void *allocate(size count) {
    if (!next) next = &__heap_base;
    unsigned char *at = next;
    next += (count + 15) & ~15ul;
    size pages = ((size)next + 65535) / 65536, have = __builtin_wasm_memory_size(0);
    if (pages > have && __builtin_wasm_memory_grow(0, pages - have) == (size)-1) return 0;
    return at;
}

void *copy(const void *from, size count) {
    void *to = allocate(count);
    if (to) __builtin_memcpy(to, from, count);
    return to;
}

void clear(void *at, size count) { __builtin_memset(at, 0, count); }
void move(void *to, const void *from, size count) { __builtin_memmove(to, from, count); }
int extended(int x) { return (signed char)x + (short)(x >> 8); }
long long extended64(long long x) { return (signed char)x ^ (int)(x >> 16); }

size length(const char *text) {
    const char *at = text;
    while (*at) at++;
    return at - text;
}

const char *name(int n) {
    static const char *const names[] = {"block", "loop", "if", "try_table"};
    return n >= 0 && n < 4 ? names[n] : "none";
}
