/*
 * AES and its modes, keyed hashes, key derivation and the bodies of payloads, for C and C++.
 *
 * Link with libdp_c.a, which `rt lib` makes of crates/dp_c, and with the kit's c/liblibc_c.a, which
 * takes memory by malloc, realloc and free. README.md has the command.
 *
 * For every function:
 *
 * - Answer. DP_DONE is 0; every other answer says why nothing was done. A function without an answer is
 *   never refused. DP_NO_MEMORY may come from each function that says "takes memory", and from no other.
 * - Bytes. An input is a pointer and its length in bytes. NULL with length 0 is the empty input, or a room
 *   of no bytes. Where a length stands in the declaration, as in block[16], the pointer is to so many
 *   bytes and is not NULL. `written` is not NULL.
 * - Room. `out` is the room for the answer and `out_len` its size. The answer stands at the front of the
 *   room, *written is its length, and the room behind it is as it was. Where the answer is not DP_DONE,
 *   `out`, *written and `block` are as they were.
 * - Overlap. What is written (out, *written, block) lies over no input and over nothing else that is
 *   written. Inputs may lie over each other.
 * - Threads. Nothing is kept between calls: threads may call at the same time, as long as none writes
 *   what another reads. A function that takes memory is not to be called from a signal handler, nor
 *   in the forked child of a process with threads.
 * - Memory. There is one allocator, the malloc, realloc and free that the program is linked with, and no way
 *   to hand in another. All that a call takes it gives back before it returns: nothing is yours to free.
 * - Keys. What is made of a key is private to the library, so no context crosses to C: each call expands
 *   its key anew, and a call on a body derives its keys and works out the context header anew.
 * - Time. None of this runs in constant time, and no key is wiped from memory. To compare two tags is left to
 *   you: by a function of constant time.
 * - Machine. x86-64 with the instructions of level 2 (x86-64-v2: up to SSE4.2 and POPCNT), under Linux. No
 *   function asks for more, and none uses AES or SHA instructions.
 */
#ifndef DP_C_H
#define DP_C_H

#include <stddef.h>
#include <stdint.h>

/* The version of this header and of the library. */
#define DP_VERSION "0.1.0"
#define DP_VERSION_MAJOR 0
#define DP_VERSION_MINOR 1
#define DP_VERSION_PATCH 0

/* Marks an answer that has to be looked at: a compiler that can warns where it isn't. */
#if (defined(__cplusplus) && __cplusplus >= 201703L) || \
    (defined(__STDC_VERSION__) && __STDC_VERSION__ >= 202311L)
#define DP_MUST_USE [[nodiscard]]
#elif defined(__GNUC__) || defined(__clang__)
#define DP_MUST_USE __attribute__((warn_unused_result))
#else
#define DP_MUST_USE
#endif

/* Lengths in bytes: of a block, of a body's material and modifier, of vectors, tags and digests. */
#define DP_BLOCK_BYTES 16
#define DP_MATERIAL_BYTES 64
#define DP_MODIFIER_BYTES 16
#define DP_CBC_IV_BYTES 16
#define DP_GCM_NONCE_BYTES 12
#define DP_GCM_TAG_BYTES 16
#define DP_SHA256_BYTES 32
#define DP_SHA512_BYTES 64
/* The longest context header, and the most that dp_derive derives. */
#define DP_MAX_HEADER_BYTES 98
#define DP_MAX_DERIVED_BYTES 1024

/* The vector of a body under a code of 1 to 9. */
#define DP_IV_BYTES(code) ((code) <= 6 ? DP_CBC_IV_BYTES : DP_GCM_NONCE_BYTES)
/* Rooms for a text of plain_len bytes, below 2^32: of dp_cbc_seal, dp_gcm_seal, and dp_body_seal. */
#define DP_CBC_ROOM(plain_len) ((size_t)(plain_len) + 16 - (size_t)(plain_len) % 16)
#define DP_GCM_ROOM(plain_len) ((size_t)(plain_len) + DP_GCM_TAG_BYTES)
#define DP_BODY_ROOM(code, plain_len) \
    ((code) <= 3 ? 64 + DP_CBC_ROOM(plain_len) \
     : (code) <= 6 ? 96 + DP_CBC_ROOM(plain_len) \
     : 44 + (size_t)(plain_len))
/* Enough for a body under each code. */
#define DP_MAX_BODY_ROOM(plain_len) ((size_t)(plain_len) + 112)

#ifdef __cplusplus
extern "C" {
#endif

/* The call did its work, and wrote. */
#define DP_DONE 0u
/* The key hasn't 16, 24 or 32 bytes. */
#define DP_BAD_KEY_LENGTH 1u
/* What is to be opened hasn't the length that its form asks for. */
#define DP_BAD_LENGTH 2u
/* The deciphered text isn't padded. Don't tell a peer. */
#define DP_BAD_PADDING 3u
/* No memory was found. */
#define DP_NO_MEMORY 4u
/* The room is too small. */
#define DP_NO_ROOM 5u
/* The tag is another. */
#define DP_BAD_TAG 6u
/* More bytes came, or were asked for, than the call takes; its limits are this library's own. */
#define DP_TOO_LONG 7u
/* No algorithm has the code. */
#define DP_BAD_CODE 8u
/* The vector hasn't the length that the algorithm asks for. */
#define DP_BAD_VECTOR 9u
/* The body was altered, or was sealed otherwise. */
#define DP_TAMPERED 10u

/*
 * AES on one block, in place (FIPS 197). key: 16, 24 or 32 bytes.
 * Answers DP_DONE or DP_BAD_KEY_LENGTH. Takes no memory.
 */
DP_MUST_USE
uint32_t dp_aes_encrypt(const uint8_t *key, size_t key_len, uint8_t block[16]);
DP_MUST_USE
uint32_t dp_aes_decrypt(const uint8_t *key, size_t key_len, uint8_t block[16]);

/*
 * Pads the text (RFC 5652, 6.3) and enciphers it by AES in CBC (SP 800-38A, 6.2). key: 16, 24 or 32 bytes.
 * Room: plain_len + 16 - plain_len % 16 bytes, all of which are written.
 * Answers DP_DONE, DP_BAD_KEY_LENGTH, DP_NO_MEMORY, DP_NO_ROOM. Takes memory. Nothing tells an altered
 * body: use dp_body_seal where that matters.
 */
DP_MUST_USE
uint32_t dp_cbc_seal(const uint8_t *key, size_t key_len, const uint8_t iv[16],
                     const uint8_t *plain, size_t plain_len,
                     uint8_t *out, size_t out_len, size_t *written);

/*
 * The way back. Room: the text's length, which is below body_len; body_len bytes always do.
 * Answers DP_DONE; DP_BAD_KEY_LENGTH; DP_BAD_LENGTH exactly where the key is right and the body is empty or
 * no multiple of 16 bytes; DP_BAD_PADDING; DP_NO_MEMORY; DP_NO_ROOM. Takes memory. Who tells a peer that
 * padding was wrong gives texts away.
 */
DP_MUST_USE
uint32_t dp_cbc_open(const uint8_t *key, size_t key_len, const uint8_t iv[16],
                     const uint8_t *body, size_t body_len,
                     uint8_t *out, size_t out_len, size_t *written);

/*
 * AES in GCM (SP 800-38D, 7): the enciphered text, and behind it the tag of 16 bytes over aad and the
 * enciphered text. key: 16, 24 or 32 bytes. No two texts of one key may have the same nonce: two that have give
 * away the sum of both texts and the key of GCM's hash, and with it anybody can forge tags from then on. Under
 * one key at most 2^32 texts may have nonces that are drawn at random (SP 800-38D, 8.3).
 * Room: plain_len + 16 bytes, all of which are written.
 * Answers DP_DONE; DP_BAD_KEY_LENGTH; DP_TOO_LONG exactly where the key is right and aad or plain has
 * 2^32 bytes or more; DP_NO_MEMORY; DP_NO_ROOM. Takes memory.
 */
DP_MUST_USE
uint32_t dp_gcm_seal(const uint8_t *key, size_t key_len, const uint8_t nonce[12],
                     const uint8_t *aad, size_t aad_len,
                     const uint8_t *plain, size_t plain_len,
                     uint8_t *out, size_t out_len, size_t *written);

/*
 * The way back, of the enciphered text with its tag behind it. Room: body_len - 16 bytes, all of which
 * are written. The tag is compared before memory is asked for and before anything is deciphered.
 * Answers DP_DONE; DP_BAD_KEY_LENGTH; DP_BAD_LENGTH exactly where the key is right and the body has fewer
 * than 16 bytes; DP_TOO_LONG, with aad or text of 2^32 bytes or more; DP_BAD_TAG exactly where otherwise the tag
 * differs; DP_NO_MEMORY; DP_NO_ROOM. Takes memory.
 */
DP_MUST_USE
uint32_t dp_gcm_open(const uint8_t *key, size_t key_len, const uint8_t nonce[12],
                     const uint8_t *aad, size_t aad_len,
                     const uint8_t *body, size_t body_len,
                     uint8_t *out, size_t out_len, size_t *written);

/* The digest of the bytes (FIPS 180-4). Never refused, takes no memory, fills out. */
void dp_sha256(const uint8_t *bytes, size_t bytes_len, uint8_t out[32]);
void dp_sha512(const uint8_t *bytes, size_t bytes_len, uint8_t out[64]);

/*
 * HMAC (FIPS 198-1) of first and second as one text, under a key of any length. Never refused, takes no
 * memory, fills out. Compare such a tag with one that came from a peer in constant time: memcmp tells by its time
 * how much of a forged one is right.
 */
void dp_hmac_sha256(const uint8_t *key, size_t key_len,
                    const uint8_t *first, size_t first_len,
                    const uint8_t *second, size_t second_len, uint8_t out[32]);
void dp_hmac_sha512(const uint8_t *key, size_t key_len,
                    const uint8_t *first, size_t first_len,
                    const uint8_t *second, size_t second_len, uint8_t out[64]);

/*
 * Derives out_len bytes: SP 800-108 in counter mode over HMAC with SHA-512, with a counter of 32 bits in
 * front, a zero byte between label and context, and the length in bits in 32. Fills the whole of out.
 * Answers DP_DONE, or DP_TOO_LONG exactly where out_len is above 1024. Takes no memory.
 */
DP_MUST_USE
uint32_t dp_derive(const uint8_t *key, size_t key_len,
                   const uint8_t *label, size_t label_len,
                   const uint8_t *context, size_t context_len,
                   uint8_t *out, size_t out_len);

/*
 * The calls below take an algorithm by its code:
 *
 *   1, 2, 3   AES of 128, 192 and 256 bits in CBC, with HMAC over SHA-256
 *   4, 5, 6   AES of 128, 192 and 256 bits in CBC, with HMAC over SHA-512
 *   7, 8, 9   AES of 128, 192 and 256 bits in GCM
 */

/*
 * The context header of the algorithm. Room: 66 bytes for the codes 1 to 3, 98 for 4 to 6, 34 for 7 to 9,
 * all of which are written.
 * Answers DP_DONE; DP_BAD_CODE exactly where the code isn't 1 to 9; DP_NO_ROOM exactly where otherwise
 * the room is too small. Takes no memory.
 */
DP_MUST_USE
uint32_t dp_context_header(uint8_t code, uint8_t *out, size_t out_len, size_t *written);

/*
 * The body of a text: modifier, vector, enciphered text and tag, under keys that are derived from the
 * material, aad, the context header and the modifier. iv_len: 16 for the codes 1 to 6, 12 for 7 to 9. No two
 * bodies of one material and one aad may have the same modifier and vector: draw both at random.
 * Room, all of which is written:
 *
 *   1 to 3   64 + plain_len + 16 - plain_len % 16
 *   4 to 6   96 + plain_len + 16 - plain_len % 16
 *   7 to 9   44 + plain_len
 *
 * Answers DP_DONE; DP_BAD_CODE exactly where the code isn't 1 to 9; DP_BAD_VECTOR exactly where otherwise
 * iv_len is another; DP_TOO_LONG exactly where otherwise plain_len is 2^32 or more; DP_NO_MEMORY;
 * DP_NO_ROOM. Takes memory.
 */
DP_MUST_USE
uint32_t dp_body_seal(uint8_t code, const uint8_t material[64],
                      const uint8_t *aad, size_t aad_len,
                      const uint8_t modifier[16], const uint8_t *iv, size_t iv_len,
                      const uint8_t *plain, size_t plain_len,
                      uint8_t *out, size_t out_len, size_t *written);

/*
 * The text of a body. Room: the text's length, which is at most body_len - 44; body_len bytes always do.
 * The tag is compared before anything is deciphered, and whether or not memory is found.
 * Answers DP_DONE; DP_BAD_CODE exactly where the code isn't 1 to 9; DP_BAD_LENGTH exactly where otherwise the
 * body is shorter than modifier, vector and tag together (64, 96 or 44 bytes); DP_TOO_LONG exactly where
 * otherwise it has 2^32 bytes or more; DP_TAMPERED wherever otherwise the tag is another, or where the
 * deciphered text isn't padded, and nowhere else; DP_NO_MEMORY, but never for a wrong tag; DP_NO_ROOM. Takes
 * memory.
 */
DP_MUST_USE
uint32_t dp_body_open(uint8_t code, const uint8_t material[64],
                      const uint8_t *aad, size_t aad_len,
                      const uint8_t *body, size_t body_len,
                      uint8_t *out, size_t out_len, size_t *written);

#ifdef __cplusplus
}
#endif

#endif
