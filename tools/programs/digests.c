// clang --target=wasm32 -O2 -nostdlib -Wl,--no-entry -Wl,--strip-all -Wl,--export-dynamic -fvisibility=default -o digests.wasm digests.c
typedef unsigned int u32;
typedef unsigned long long u64;
typedef unsigned char u8;

static u32 table[256];
static int ready;

static void prepare(void) {
    for (u32 i = 0; i < 256; i++) {
        u32 x = i;
        for (int k = 0; k < 8; k++) x = x & 1 ? 0xedb88320u ^ (x >> 1) : x >> 1;
        table[i] = x;
    }
    ready = 1;
}

u32 crc32(const u8 *bytes, u32 count) {
    if (!ready) prepare();
    u32 x = ~0u;
    while (count--) x = table[(x ^ *bytes++) & 255] ^ (x >> 8);
    return ~x;
}

u64 fnv(const u8 *bytes, u32 count) {
    u64 x = 0xcbf29ce484222325ull;
    for (u32 i = 0; i < count; i++) x = (x ^ bytes[i]) * 0x100000001b3ull;
    return x;
}

static u32 turned(u32 x, int n) {
    return x << n | x >> (32 - n);
}

void quarter(u32 *s, int a, int b, int c, int d) {
    s[a] += s[b]; s[d] = turned(s[d] ^ s[a], 16);
    s[c] += s[d]; s[b] = turned(s[b] ^ s[c], 12);
    s[a] += s[b]; s[d] = turned(s[d] ^ s[a], 8);
    s[c] += s[d]; s[b] = turned(s[b] ^ s[c], 7);
}
