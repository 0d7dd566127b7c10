/*
 * Seals a text under a new key, opens it again, and shows that an altered body is refused. README.md has
 * the command that builds it.
 */
#include <stdio.h>
#include <string.h>

#include "dp_c.h"

/* AES of 256 bits in CBC, with HMAC over SHA-256. */
#define CODE 3

static int draw(uint8_t *bytes, size_t len)
{
    FILE *random = fopen("/dev/urandom", "rb");
    size_t read = random == NULL ? 0 : fread(bytes, 1, len, random);
    if (random != NULL) {
        fclose(random);
    }
    return read == len;
}

int main(void)
{
    static const char text[] = "attack at dawn, by the north gate";
    static const char purpose[] = "samples/seal.c";
    uint8_t material[DP_MATERIAL_BYTES], modifier[DP_MODIFIER_BYTES], iv[DP_IV_BYTES(CODE)];
    uint8_t body[DP_BODY_ROOM(CODE, sizeof text - 1)], opened[sizeof body];
    size_t body_len = 0, opened_len = 0;

    if (!draw(material, sizeof material) || !draw(modifier, sizeof modifier) || !draw(iv, sizeof iv)) {
        fputs("seal: no random bytes\n", stderr);
        return 1;
    }
    uint32_t answer = dp_body_seal(CODE, material, (const uint8_t *)purpose, strlen(purpose), modifier,
                                   iv, sizeof iv, (const uint8_t *)text, strlen(text),
                                   body, sizeof body, &body_len);
    if (answer != DP_DONE) {
        fprintf(stderr, "seal: sealing answered %u\n", (unsigned)answer);
        return 1;
    }
    printf("sealed %zu bytes into %zu\n", strlen(text), body_len);

    answer = dp_body_open(CODE, material, (const uint8_t *)purpose, strlen(purpose), body, body_len,
                          opened, sizeof opened, &opened_len);
    if (answer != DP_DONE) {
        fprintf(stderr, "seal: opening answered %u\n", (unsigned)answer);
        return 1;
    }
    printf("opened: %.*s\n", (int)opened_len, (const char *)opened);

    body[40] ^= 1;
    answer = dp_body_open(CODE, material, (const uint8_t *)purpose, strlen(purpose), body, body_len,
                          opened, sizeof opened, &opened_len);
    puts(answer == DP_TAMPERED ? "altered: refused" : "altered: not refused");
    return answer == DP_TAMPERED ? 0 : 1;
}
