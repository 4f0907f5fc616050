/* PHOTON-Beetle in plain C, written from the published text. It shares no code with the library: it is what that is compared with. */
#ifndef PLAIN_H
#define PLAIN_H
#include <stddef.h>
#include <stdint.h>

void plain_init(void);
void plain_permute(uint8_t state[32]);
void plain_hash(const uint8_t *text, size_t len, uint8_t out[32]);
/* rate: 16 or 4 bytes. The sealed text is the ciphertext and then the tag of 16 bytes. */
void plain_seal(int rate, const uint8_t key[16], const uint8_t nonce[16], const uint8_t *ad, size_t adlen,
                const uint8_t *msg, size_t len, uint8_t *out);
/* 1 and the message where the tag is right, else 0 and zeros. */
int plain_open(int rate, const uint8_t key[16], const uint8_t nonce[16], const uint8_t *ad, size_t adlen,
               const uint8_t *sealed, size_t len, uint8_t *out);
#endif
