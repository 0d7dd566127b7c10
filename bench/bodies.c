/*
 * Sealing and opening bodies by dp_c and by OpenSSL, in operations a second of processor time, the best of
 * several turns each, and their ratio. OpenSSL does the same work: it derives the keys, enciphers, and
 * makes or compares the tag. It is given the context header, and a context for each key of a call.
 */
#include <stdio.h>
#include <stdlib.h>
#include <string.h>
#include <time.h>

#include <openssl/crypto.h>
#include <openssl/evp.h>
#include <openssl/hmac.h>

#include "dp_c.h"

enum { TURNS = 7, MOST = 65536, ROOM = MOST + 256 };

static const double TURN_SECONDS = 0.12;

static uint8_t material[64], modifier[16], iv[16], text[MOST], ours[ROOM], theirs[ROOM], opened[ROOM];
static const uint8_t aad[] = "purpose of these bodies";
static uint8_t header[98];
static size_t header_len, iv_len, ours_len, theirs_len, opened_len, text_len;
static uint8_t code;

static void want(int holds, const char *what)
{
    if (!holds) {
        fprintf(stderr, "bodies: %s\n", what);
        exit(1);
    }
}

/* The keys of a body: one or two blocks of HMAC-SHA-512. */
static void derive(const uint8_t *by, uint8_t *keys, size_t len)
{
    uint8_t fixed[4 + sizeof aad + 1 + sizeof header + 16 + 4], block[64];
    size_t at = 4;
    memcpy(fixed + at, aad, sizeof aad);
    at += sizeof aad;
    fixed[at++] = 0;
    memcpy(fixed + at, header, header_len);
    at += header_len;
    memcpy(fixed + at, by, 16);
    at += 16;
    uint32_t bits = 8 * (uint32_t)len;
    for (int shift = 24; shift >= 0; shift -= 8) {
        fixed[at++] = (uint8_t)(bits >> shift);
    }
    for (size_t done = 0; done < len; done += 64) {
        unsigned size = 64;
        memset(fixed, 0, 3);
        fixed[3] = (uint8_t)(done / 64 + 1);
        want(HMAC(EVP_sha512(), material, 64, fixed, at, block, &size) != NULL, "HMAC");
        memcpy(keys + done, block, len - done < 64 ? len - done : 64);
    }
}

static void seal_ours(void)
{
    want(dp_body_seal(code, material, aad, sizeof aad, modifier, iv, iv_len, text, text_len,
                      ours, sizeof ours, &ours_len) == DP_DONE, "sealing");
}

static void open_ours(void)
{
    want(dp_body_open(code, material, aad, sizeof aad, ours, ours_len, opened, sizeof opened,
                      &opened_len) == DP_DONE, "opening");
}

static void seal_theirs(void)
{
    uint8_t keys[128];
    int len = 0, end = 0;
    EVP_CIPHER_CTX *cipher = EVP_CIPHER_CTX_new();
    memcpy(theirs, modifier, 16);
    memcpy(theirs + 16, iv, iv_len);
    uint8_t *at = theirs + 16 + iv_len;
    if (code == 3) {
        unsigned size = 32;
        derive(modifier, keys, 64);
        want(EVP_EncryptInit_ex(cipher, EVP_aes_256_cbc(), NULL, keys, iv) == 1, "EVP");
        want(EVP_EncryptUpdate(cipher, at, &len, text, (int)text_len) == 1, "EVP");
        want(EVP_EncryptFinal_ex(cipher, at + len, &end) == 1, "EVP");
        len += end;
        want(HMAC(EVP_sha256(), keys + 32, 32, theirs + 16, 16 + (size_t)len, at + len, &size) != NULL, "HMAC");
        theirs_len = 32 + (size_t)len + 32;
    } else {
        derive(modifier, keys, 32);
        want(EVP_EncryptInit_ex(cipher, EVP_aes_256_gcm(), NULL, keys, iv) == 1, "EVP");
        want(EVP_EncryptUpdate(cipher, at, &len, text, (int)text_len) == 1, "EVP");
        want(EVP_EncryptFinal_ex(cipher, at + len, &end) == 1, "EVP");
        want(EVP_CIPHER_CTX_ctrl(cipher, EVP_CTRL_AEAD_GET_TAG, 16, at + len) == 1, "EVP");
        theirs_len = 28 + (size_t)len + 16;
    }
    EVP_CIPHER_CTX_free(cipher);
}

static void open_theirs(void)
{
    uint8_t keys[128], tag[32];
    int len = 0, end = 0;
    EVP_CIPHER_CTX *cipher = EVP_CIPHER_CTX_new();
    uint8_t *at = theirs + 16 + iv_len;
    if (code == 3) {
        unsigned size = 32;
        int body = (int)theirs_len - 64;
        derive(theirs, keys, 64);
        want(HMAC(EVP_sha256(), keys + 32, 32, theirs + 16, theirs_len - 48, tag, &size) != NULL, "HMAC");
        want(CRYPTO_memcmp(tag, at + body, 32) == 0, "their tag");
        want(EVP_DecryptInit_ex(cipher, EVP_aes_256_cbc(), NULL, keys, theirs + 16) == 1, "EVP");
        want(EVP_DecryptUpdate(cipher, opened, &len, at, body) == 1, "EVP");
        want(EVP_DecryptFinal_ex(cipher, opened + len, &end) == 1, "EVP");
    } else {
        int body = (int)theirs_len - 44;
        derive(theirs, keys, 32);
        want(EVP_DecryptInit_ex(cipher, EVP_aes_256_gcm(), NULL, keys, theirs + 16) == 1, "EVP");
        want(EVP_DecryptUpdate(cipher, opened, &len, at, body) == 1, "EVP");
        want(EVP_CIPHER_CTX_ctrl(cipher, EVP_CTRL_AEAD_SET_TAG, 16, at + body) == 1, "EVP");
        want(EVP_DecryptFinal_ex(cipher, opened + len, &end) == 1, "their tag");
    }
    opened_len = (size_t)(len + end);
    EVP_CIPHER_CTX_free(cipher);
}

static double seconds(void)
{
    struct timespec now;
    clock_gettime(CLOCK_PROCESS_CPUTIME_ID, &now);
    return (double)now.tv_sec + 1e-9 * (double)now.tv_nsec;
}

/* Operations a second in one turn. */
static double turn(void (*call)(void))
{
    double start = seconds(), now = start;
    long count = 0;
    for (long many = 1; now - start < TURN_SECONDS; many *= 2) {
        for (long i = 0; i < many; i++) {
            call();
        }
        count += many;
        now = seconds();
    }
    return (double)count / (now - start);
}

static void row(const char *name, void (*mine)(void), void (*other)(void))
{
    double a = 0, b = 0;
    /* By turns, so that both see the same machine. */
    for (int i = 0; i < TURNS; i++) {
        double x = turn(mine), y = turn(other);
        a = x > a ? x : a;
        b = y > b ? y : b;
    }
    printf("| %d | %s | %zu | %.0f | %.0f | %.3f |\n", code, name, text_len, a, b, a / b);
    fflush(stdout);
}

int main(void)
{
    static const size_t sizes[] = {16, 256, 4096, 65536};
    static const uint8_t codes[] = {3, 9};
    for (size_t i = 0; i < sizeof material; i++) {
        material[i] = (uint8_t)i;
    }
    for (size_t i = 0; i < sizeof text; i++) {
        text[i] = (uint8_t)(i * 7);
    }
    printf("%s\n\n", OpenSSL_version(OPENSSL_VERSION));
    puts("| Code | Work | Bytes of text | dp_c, a second | OpenSSL, a second | Ratio |");
    puts("|---|---|---|---|---|---|");
    for (size_t c = 0; c < sizeof codes; c++) {
        code = codes[c];
        iv_len = code == 3 ? 16 : 12;
        want(dp_context_header(code, header, sizeof header, &header_len) == DP_DONE, "header");
        for (size_t s = 0; s < sizeof sizes / sizeof *sizes; s++) {
            text_len = sizes[s];
            seal_ours();
            seal_theirs();
            want(ours_len == theirs_len && memcmp(ours, theirs, ours_len) == 0, "the bodies differ");
            row("seal", seal_ours, seal_theirs);
            open_theirs();
            want(opened_len == text_len && memcmp(opened, text, text_len) == 0, "their text");
            row("open", open_ours, open_theirs);
        }
    }
    return 0;
}
