// GHASH in plain C by two forms with tables of 16 multiples, and the library's, in turns in one process:
// megabytes of processor time a second, each the best of many turns.
#include <stdint.h>
#include <stdio.h>
#include <string.h>
#include <time.h>

enum { SIZE = 1 << 16, TURNS = 200 };

typedef unsigned __int128 u128;

// Of the library: a block as the key, a text, and room for the hash.
void speed_ghash(const uint8_t *h, const uint8_t *text, size_t len, uint8_t *hash);

static uint64_t load(const uint8_t *p) {
    uint64_t n;
    memcpy(&n, p, 8);
    return __builtin_bswap64(n);
}

static void store(uint8_t *p, uint64_t n) {
    n = __builtin_bswap64(n);
    memcpy(p, &n, 8);
}

// The multiples of h for each digit of four bits, of which the leftmost stands for h itself.
static void multiples(u128 m[16], const uint8_t *h) {
    u128 v = (u128)load(h) << 64 | load(h + 8);
    m[0] = 0;
    for (int i = 8; i > 0; i >>= 1) {
        m[i] = v;
        v = (v >> 1) ^ (v & 1 ? (u128)0xe1 << 120 : 0);
    }
    for (int i = 2; i < 16; i <<= 1)
        for (int j = 1; j < i; j++)
            m[i + j] = m[i] ^ m[j];
}

// What the four bits that leave at the right are worth.
static uint64_t left[16];

static void set_left(void) {
    for (int i = 0; i < 16; i++) {
        u128 v = i;
        for (int j = 0; j < 4; j++)
            v = (v >> 1) ^ (v & 1 ? (u128)0xe1 << 120 : 0);
        left[i] = v >> 64;
    }
}

// The digits of a half of x, from the right, each a reduction and a look-up.
static inline void half(const uint64_t hi[16], const uint64_t lo[16], uint64_t x, uint64_t *z1, uint64_t *z0) {
    for (int i = 0; i < 16; i++) {
        unsigned out = *z0 & 15;
        *z0 = (*z0 >> 4 | *z1 << 60) ^ lo[x & 15];
        *z1 = *z1 >> 4 ^ left[out] ^ hi[x & 15];
        x >>= 4;
    }
}

static void by_digits(const uint64_t hi[16], const uint64_t lo[16], uint64_t *x1, uint64_t *x0) {
    uint64_t z1 = 0, z0 = 0;
    half(hi, lo, *x0, &z1, &z0);
    half(hi, lo, *x1, &z1, &z0);
    *x1 = z1;
    *x0 = z0;
}

static void plain_ghash(const uint8_t *h, const uint8_t *text, size_t len, uint8_t *hash) {
    u128 m[16];
    uint64_t hi[16], lo[16], x1 = 0, x0 = 0;
    multiples(m, h);
    for (int i = 0; i < 16; i++) {
        hi[i] = m[i] >> 64;
        lo[i] = m[i];
    }
    for (size_t i = 0; i < len; i += 16) {
        x1 ^= load(text + i);
        x0 ^= load(text + i + 8);
        by_digits(hi, lo, &x1, &x0);
    }
    x0 ^= 8 * (uint64_t)len;
    by_digits(hi, lo, &x1, &x0);
    store(hash, x1);
    store(hash + 8, x0);
}

// A digit of each quarter at a time, and one reduction at the end.
static u128 by_quarters(const u128 m[16], u128 x) {
    uint64_t x1 = x >> 64, x0 = x;
    u128 high = 0, low = 0;
    for (int i = 0; i < 8; i++) {
        u128 a = m[x1 >> 32 & 15], b = m[x1 & 15], c = m[x0 >> 32 & 15], d = m[x0 & 15];
        low = low >> 4 | high << 124;
        high >>= 4;
        high ^= a ^ b >> 32 ^ c >> 64 ^ d >> 96;
        low ^= b << 96 ^ c << 64 ^ d << 32;
        x1 >>= 4;
        x0 >>= 4;
    }
    u128 t = low ^ low << 121;
    return high ^ t ^ t >> 1 ^ t >> 2 ^ t >> 7;
}

static void comb_ghash(const uint8_t *h, const uint8_t *text, size_t len, uint8_t *hash) {
    u128 m[16], x = 0;
    multiples(m, h);
    for (size_t i = 0; i < len; i += 16) {
        x ^= (u128)load(text + i) << 64 | load(text + i + 8);
        x = by_quarters(m, x);
    }
    x = by_quarters(m, x ^ 8 * (u128)len);
    store(hash, x >> 64);
    store(hash + 8, x);
}

typedef void hash_of(const uint8_t *, const uint8_t *, size_t, uint8_t *);

static double seconds(void) {
    struct timespec t;
    clock_gettime(CLOCK_PROCESS_CPUTIME_ID, &t);
    return t.tv_sec + t.tv_nsec / 1e9;
}

int main(void) {
    static uint8_t text[SIZE];
    uint8_t h[16], hash[3][16];
    hash_of *const forms[3] = {speed_ghash, plain_ghash, comb_ghash};
    const char *const names[3] = {"the library", "C, digit by digit", "C, four digits a turn"};
    double best[3] = {1e9, 1e9, 1e9};
    set_left();
    for (int i = 0; i < 16; i++)
        h[i] = 17 * i + 1;
    for (int i = 0; i < SIZE; i++)
        text[i] = i * i >> 3 ^ i;
    for (int turn = 0; turn < TURNS; turn++)
        for (int form = 0; form < 3; form++) {
            double start = seconds();
            for (int i = 0; i < 4; i++)
                forms[form](h, text, SIZE, hash[form]);
            double took = seconds() - start;
            if (took < best[form])
                best[form] = took;
        }
    if (memcmp(hash[0], hash[1], 16) || memcmp(hash[0], hash[2], 16)) {
        fputs("the hashes differ\n", stderr);
        return 1;
    }
    for (int form = 0; form < 3; form++)
        printf("GHASH, %-22s %8.1f MB/s, the library over it %.2f\n", names[form],
               4 * SIZE / best[form] / 1e6, best[form] / best[0]);
    return 0;
}
