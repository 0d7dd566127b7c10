// The peer of bench/ciphers: the ciphers and the keyed hashes in plain C, in the forms that the proved
// code has, so that the two differ by their compilers alone. The tables are computed when it is loaded.
#include <stddef.h>
#include <stdint.h>
#include <string.h>

static uint32_t load32(const uint8_t *p) {
    uint32_t x;
    memcpy(&x, p, 4);
    return __builtin_bswap32(x);
}

static void store32(uint8_t *p, uint32_t x) {
    x = __builtin_bswap32(x);
    memcpy(p, &x, 4);
}

static uint64_t load64(const uint8_t *p) {
    uint64_t x;
    memcpy(&x, p, 8);
    return __builtin_bswap64(x);
}

static void store64(uint8_t *p, uint64_t x) {
    x = __builtin_bswap64(x);
    memcpy(p, &x, 8);
}

// ---- AES (FIPS 197): four look-ups of column words for each column, two rounds a turn

static uint8_t s_box[256], inv_s_box[256];
static uint32_t mix[4][256], inv_mix[4][256];

static uint8_t times(uint8_t a, uint8_t b) {
    uint8_t sum = 0;
    for (; a; a >>= 1, b = (uint8_t)(b << 1 ^ (b >> 7) * 0x1b))
        if (a & 1)
            sum ^= b;
    return sum;
}

static uint32_t column(uint8_t a, uint8_t b, uint8_t c, uint8_t d, uint8_t x) {
    return (uint32_t)times(a, x) << 24 | times(b, x) << 16 | times(c, x) << 8 | times(d, x);
}

__attribute__((constructor)) static void make_tables(void) {
    for (int b = 0; b < 256; b++) {
        uint8_t power = 1, square = (uint8_t)b;
        for (int i = 0; i < 7; i++) {
            square = times(square, square);
            power = times(power, square);
        }
        uint8_t s = 0x63;
        for (int i = 0; i < 5; i++)
            s ^= (uint8_t)(power << i | power >> (8 - i));
        s_box[b] = s;
        inv_s_box[s] = (uint8_t)b;
    }
    for (int b = 0; b < 256; b++) {
        uint8_t s = s_box[b], i = inv_s_box[b];
        mix[0][b] = column(2, 1, 1, 3, s);
        mix[1][b] = column(3, 2, 1, 1, s);
        mix[2][b] = column(1, 3, 2, 1, s);
        mix[3][b] = column(1, 1, 3, 2, s);
        inv_mix[0][b] = column(14, 9, 13, 11, i);
        inv_mix[1][b] = column(11, 14, 9, 13, i);
        inv_mix[2][b] = column(13, 11, 14, 9, i);
        inv_mix[3][b] = column(9, 13, 11, 14, i);
    }
}

struct aes {
    uint32_t words[60], inverse[60];
    size_t rounds;
};

static uint32_t sub_word(uint32_t x) {
    return (uint32_t)s_box[x >> 24] << 24 | s_box[x >> 16 & 255] << 16 | s_box[x >> 8 & 255] << 8 |
           s_box[x & 255];
}

static void aes_new(struct aes *aes, const uint8_t *key, size_t len) {
    size_t nk = len / 4;
    aes->rounds = nk + 6;
    uint32_t *w = aes->words;
    uint8_t rcon = 1;
    for (size_t i = 0; i < 4 * (aes->rounds + 1); i++) {
        if (i < nk) {
            w[i] = load32(key + 4 * i);
            continue;
        }
        uint32_t t = w[i - 1];
        if (i % nk == 0) {
            t = sub_word(t << 8 | t >> 24) ^ (uint32_t)rcon << 24;
            rcon = times(2, rcon);
        } else if (nk > 6 && i % nk == 4) {
            t = sub_word(t);
        }
        w[i] = w[i - nk] ^ t;
    }
    memcpy(aes->inverse, w, sizeof aes->words);
    for (size_t i = 4; i < 4 * aes->rounds; i++) {
        uint32_t x = w[i];
        aes->inverse[i] = inv_mix[0][s_box[x >> 24]] ^ inv_mix[1][s_box[x >> 16 & 255]] ^
                          inv_mix[2][s_box[x >> 8 & 255]] ^ inv_mix[3][s_box[x & 255]];
    }
}

#define LOOK(t, a, b, c, d, k) \
    (t[0][(a) >> 24] ^ t[1][(b) >> 16 & 255] ^ t[2][(c) >> 8 & 255] ^ t[3][(d) & 255] ^ (k))
#define SUBST(t, a, b, c, d, k) \
    (((uint32_t)t[(a) >> 24] << 24 | t[(b) >> 16 & 255] << 16 | t[(c) >> 8 & 255] << 8 | \
      t[(d) & 255]) ^ (k))

// A round from the columns s to the columns t: by rows to the right, and to the left.
#define ROUND(op, table, s, t, k) \
    t##0 = op(table, s##0, s##1, s##2, s##3, (k)[0]); \
    t##1 = op(table, s##1, s##2, s##3, s##0, (k)[1]); \
    t##2 = op(table, s##2, s##3, s##0, s##1, (k)[2]); \
    t##3 = op(table, s##3, s##0, s##1, s##2, (k)[3])
#define INV_ROUND(op, table, s, t, k) \
    t##0 = op(table, s##0, s##3, s##2, s##1, (k)[0]); \
    t##1 = op(table, s##1, s##0, s##3, s##2, (k)[1]); \
    t##2 = op(table, s##2, s##1, s##0, s##3, (k)[2]); \
    t##3 = op(table, s##3, s##2, s##1, s##0, (k)[3])
#define LOAD_BLOCK(p, k) \
    uint32_t s0 = load32(p) ^ (k)[0], s1 = load32(p + 4) ^ (k)[1]; \
    uint32_t s2 = load32(p + 8) ^ (k)[2], s3 = load32(p + 12) ^ (k)[3]; \
    uint32_t t0, t1, t2, t3
#define STORE_BLOCK(p) store32(p, s0), store32(p + 4, s1), store32(p + 8, s2), store32(p + 12, s3)

static void encrypt_block(const struct aes *aes, uint8_t *block) {
    const uint32_t *k = aes->words;
    LOAD_BLOCK(block, k);
    for (size_t turn = aes->rounds / 2 - 1; turn > 0; turn--) {
        ROUND(LOOK, mix, s, t, k + 4);
        ROUND(LOOK, mix, t, s, k + 8);
        k += 8;
    }
    ROUND(LOOK, mix, s, t, k + 4);
    ROUND(SUBST, s_box, t, s, k + 8);
    STORE_BLOCK(block);
}

static void decrypt_block(const struct aes *aes, uint8_t *block) {
    const uint32_t *k = aes->inverse + 4 * aes->rounds;
    LOAD_BLOCK(block, k);
    for (size_t turn = aes->rounds / 2 - 1; turn > 0; turn--) {
        INV_ROUND(LOOK, inv_mix, s, t, k - 4);
        INV_ROUND(LOOK, inv_mix, t, s, k - 8);
        k -= 8;
    }
    INV_ROUND(LOOK, inv_mix, s, t, k - 4);
    INV_ROUND(SUBST, inv_s_box, t, s, k - 8);
    STORE_BLOCK(block);
}

void peer_aes_encrypt(const uint8_t *key, size_t key_len, uint8_t *bytes, size_t len) {
    struct aes aes;
    aes_new(&aes, key, key_len);
    for (size_t i = 0; i < len / 16; i++)
        encrypt_block(&aes, bytes + 16 * i);
}

void peer_aes_decrypt(const uint8_t *key, size_t key_len, uint8_t *bytes, size_t len) {
    struct aes aes;
    aes_new(&aes, key, key_len);
    for (size_t i = 0; i < len / 16; i++)
        decrypt_block(&aes, bytes + 16 * i);
}

// ---- Cipher block chaining (SP 800-38A, 6.2), with the padding of RFC 5652

static void xor_block(uint8_t *to, const uint8_t *from) {
    uint64_t a[2], b[2];
    memcpy(a, to, 16);
    memcpy(b, from, 16);
    a[0] ^= b[0];
    a[1] ^= b[1];
    memcpy(to, a, 16);
}

// Writes the body, and tells its length.
size_t peer_cbc_seal(const uint8_t *key, size_t key_len, const uint8_t *iv, const uint8_t *text,
                     size_t len, uint8_t *out) {
    struct aes aes;
    aes_new(&aes, key, key_len);
    size_t whole = len / 16 * 16 + 16;
    memcpy(out, text, len);
    memset(out + len, (int)(whole - len), whole - len);
    uint8_t before[16];
    memcpy(before, iv, 16);
    for (size_t i = 0; i < whole; i += 16) {
        xor_block(before, out + i);
        encrypt_block(&aes, before);
        memcpy(out + i, before, 16);
    }
    return whole;
}

// Writes the deciphered body, and tells its length without the padding, or 0 where there is none.
size_t peer_cbc_open(const uint8_t *key, size_t key_len, const uint8_t *iv, const uint8_t *body,
                     size_t len, uint8_t *out) {
    struct aes aes;
    aes_new(&aes, key, key_len);
    const uint8_t *before = iv;
    for (size_t i = 0; i < len / 16 * 16; i += 16) {
        uint8_t block[16];
        memcpy(block, body + i, 16);
        decrypt_block(&aes, block);
        xor_block(block, before);
        memcpy(out + i, block, 16);
        before = body + i;
    }
    size_t count = len ? out[len - 1] : 0;
    if (count == 0 || count > 16 || count > len)
        return 0;
    for (size_t i = len - count; i < len; i++)
        if (out[i] != count)
            return 0;
    return len - count;
}

// ---- HMAC (FIPS 198-1) over SHA-256 and SHA-512 (FIPS 180-4): sixteen rounds a turn, and a ring of
// sixteen words

static const uint64_t k512[80] = {
    0x428a2f98d728ae22u, 0x7137449123ef65cdu, 0xb5c0fbcfec4d3b2fu, 0xe9b5dba58189dbbcu,
    0x3956c25bf348b538u, 0x59f111f1b605d019u, 0x923f82a4af194f9bu, 0xab1c5ed5da6d8118u,
    0xd807aa98a3030242u, 0x12835b0145706fbeu, 0x243185be4ee4b28cu, 0x550c7dc3d5ffb4e2u,
    0x72be5d74f27b896fu, 0x80deb1fe3b1696b1u, 0x9bdc06a725c71235u, 0xc19bf174cf692694u,
    0xe49b69c19ef14ad2u, 0xefbe4786384f25e3u, 0x0fc19dc68b8cd5b5u, 0x240ca1cc77ac9c65u,
    0x2de92c6f592b0275u, 0x4a7484aa6ea6e483u, 0x5cb0a9dcbd41fbd4u, 0x76f988da831153b5u,
    0x983e5152ee66dfabu, 0xa831c66d2db43210u, 0xb00327c898fb213fu, 0xbf597fc7beef0ee4u,
    0xc6e00bf33da88fc2u, 0xd5a79147930aa725u, 0x06ca6351e003826fu, 0x142929670a0e6e70u,
    0x27b70a8546d22ffcu, 0x2e1b21385c26c926u, 0x4d2c6dfc5ac42aedu, 0x53380d139d95b3dfu,
    0x650a73548baf63deu, 0x766a0abb3c77b2a8u, 0x81c2c92e47edaee6u, 0x92722c851482353bu,
    0xa2bfe8a14cf10364u, 0xa81a664bbc423001u, 0xc24b8b70d0f89791u, 0xc76c51a30654be30u,
    0xd192e819d6ef5218u, 0xd69906245565a910u, 0xf40e35855771202au, 0x106aa07032bbd1b8u,
    0x19a4c116b8d2d0c8u, 0x1e376c085141ab53u, 0x2748774cdf8eeb99u, 0x34b0bcb5e19b48a8u,
    0x391c0cb3c5c95a63u, 0x4ed8aa4ae3418acbu, 0x5b9cca4f7763e373u, 0x682e6ff3d6b2b8a3u,
    0x748f82ee5defb2fcu, 0x78a5636f43172f60u, 0x84c87814a1f0ab72u, 0x8cc702081a6439ecu,
    0x90befffa23631e28u, 0xa4506cebde82bde9u, 0xbef9a3f7b2c67915u, 0xc67178f2e372532bu,
    0xca273eceea26619cu, 0xd186b8c721c0c207u, 0xeada7dd6cde0eb1eu, 0xf57d4f7fee6ed178u,
    0x06f067aa72176fbau, 0x0a637dc5a2c898a6u, 0x113f9804bef90daeu, 0x1b710b35131c471bu,
    0x28db77f523047d84u, 0x32caab7b40c72493u, 0x3c9ebe0a15c9bebcu, 0x431d67c49c100d4cu,
    0x4cc5d4becb3e42b6u, 0x597f299cfc657e2au, 0x5fcb6fab3ad6faecu, 0x6c44198c4a475817u,
};

#define ROT32(x, n) ((x) >> (n) | (x) << (32 - (n)))
#define ROT64(x, n) ((x) >> (n) | (x) << (64 - (n)))

static const uint64_t h512[8] = {
    0x6a09e667f3bcc908u, 0xbb67ae8584caa73bu, 0x3c6ef372fe94f82bu, 0xa54ff53a5f1d36f1u,
    0x510e527fade682d1u, 0x9b05688c2b3e6c1fu, 0x1f83d9abfb41bd6bu, 0x5be0cd19137e2179u,
};

#define STEP(W, ROT, S0, S1, S2, S3, S4, S5, k, w) \
    do { \
        W t1 = h + (ROT(e, S3) ^ ROT(e, S4) ^ ROT(e, S5)) + (g ^ (e & (f ^ g))) + (k) + (w); \
        W t2 = (ROT(a, S0) ^ ROT(a, S1) ^ ROT(a, S2)) + (b ^ ((a ^ b) & (b ^ c))); \
        h = g, g = f, f = e, e = d + t1, d = c, c = b, b = a, a = t1 + t2; \
    } while (0)

#define STEP32(k, w) STEP(uint32_t, ROT32, 2, 13, 22, 6, 11, 25, k, w)
#define STEP64(k, w) STEP(uint64_t, ROT64, 28, 34, 39, 14, 18, 41, k, w)

#define NEXT32(i) \
    (w[i] += (ROT32(w[(i + 14) & 15], 17) ^ ROT32(w[(i + 14) & 15], 19) ^ w[(i + 14) & 15] >> 10) + \
             w[(i + 9) & 15] + (ROT32(w[(i + 1) & 15], 7) ^ ROT32(w[(i + 1) & 15], 18) ^ w[(i + 1) & 15] >> 3))
#define NEXT64(i) \
    (w[i] += (ROT64(w[(i + 14) & 15], 19) ^ ROT64(w[(i + 14) & 15], 61) ^ w[(i + 14) & 15] >> 6) + \
             w[(i + 9) & 15] + (ROT64(w[(i + 1) & 15], 1) ^ ROT64(w[(i + 1) & 15], 8) ^ w[(i + 1) & 15] >> 7))

#define FOUR(M, t, i) M(t, i); M(t, i + 1); M(t, i + 2); M(t, i + 3)
#define SIXTEEN(M, t) FOUR(M, t, 0); FOUR(M, t, 4); FOUR(M, t, 8); FOUR(M, t, 12)
#define FIRST32(t, i) STEP32(k256[t + i], w[i])
#define LATER32(t, i) STEP32(k256[t + i], NEXT32(i))
#define FIRST64(t, i) STEP64(k512[t + i], w[i])
#define LATER64(t, i) STEP64(k512[t + i], NEXT64(i))

// The first 32 bits of these constants are those of SHA-256.
static uint32_t k256[64], h256[8];

__attribute__((constructor)) static void make_constants(void) {
    for (int i = 0; i < 64; i++)
        k256[i] = (uint32_t)(k512[i] >> 32);
    for (int i = 0; i < 8; i++)
        h256[i] = (uint32_t)(h512[i] >> 32);
}

#define COMPRESS(name, W, load, first, later, size, turns)                                        \
    static void name(W *state, const uint8_t *block) {                                            \
        W w[16];                                                                                  \
        for (int i = 0; i < 16; i++)                                                              \
            w[i] = load(block + size * i);                                                        \
        W a = state[0], b = state[1], c = state[2], d = state[3];                                 \
        W e = state[4], f = state[5], g = state[6], h = state[7];                                 \
        SIXTEEN(first, 0);                                                                        \
        for (int turn = 1; turn < turns; turn++) {                                                \
            int t = 16 * turn;                                                                    \
            SIXTEEN(later, t);                                                                    \
        }                                                                                         \
        state[0] += a, state[1] += b, state[2] += c, state[3] += d;                               \
        state[4] += e, state[5] += f, state[6] += g, state[7] += h;                               \
    }

COMPRESS(compress256, uint32_t, load32, FIRST32, LATER32, 4, 4)
COMPRESS(compress512, uint64_t, load64, FIRST64, LATER64, 8, 5)

// The digest of a first block and a text after it; the text alone where the block is null.
#define DIGEST(name, W, h, compress, store, size)                                                 \
    static void name(const uint8_t *first, const uint8_t *text, size_t len, uint8_t *out) {       \
        W state[8];                                                                               \
        memcpy(state, h, sizeof state);                                                           \
        if (first)                                                                                \
            compress(state, first);                                                               \
        size_t i = 0;                                                                             \
        for (; i + 16 * size <= len; i += 16 * size)                                              \
            compress(state, text + i);                                                            \
        uint8_t last[32 * size] = {0};                                                            \
        memcpy(last, text + i, len - i);                                                          \
        last[len - i] = 0x80;                                                                     \
        size_t whole = len - i + 1 + 2 * size <= 16 * size ? 16 * size : 32 * size;               \
        store64(last + whole - 8, 8 * ((first ? 16 * size : 0) + (uint64_t)len));                 \
        for (size_t j = 0; j < whole; j += 16 * size)                                             \
            compress(state, last + j);                                                            \
        for (int j = 0; j < 8; j++)                                                               \
            store(out + size * j, state[j]);                                                      \
    }

DIGEST(digest256, uint32_t, h256, compress256, store32, 4)
DIGEST(digest512, uint64_t, h512, compress512, store64, 8)

// The key has at most the bytes of a block.
#define HMAC(name, digest, size)                                                                  \
    void name(const uint8_t *key, size_t key_len, const uint8_t *text, size_t len, uint8_t *out) { \
        uint8_t ipad[16 * size], opad[16 * size], inner[8 * size];                                \
        for (size_t i = 0; i < 16 * size; i++) {                                                  \
            uint8_t k = i < key_len ? key[i] : 0;                                                 \
            ipad[i] = k ^ 0x36;                                                                   \
            opad[i] = k ^ 0x5c;                                                                   \
        }                                                                                         \
        digest(ipad, text, len, inner);                                                           \
        digest(opad, inner, sizeof inner, out);                                                   \
    }

HMAC(peer_hmac_sha256, digest256, 4)
HMAC(peer_hmac_sha512, digest512, 8)

// ---- GHASH (SP 800-38D, 6.4)
