// AES-128 and DES on one block, written from FIPS 197 and FIPS 46-3 for this test alone: what the library's bytes are held against where
// no stored answer has them.
#ifndef BLOCKS_H
#define BLOCKS_H

#include <stdint.h>

// `to` may be `block`.
void aes(const uint8_t *key, const uint8_t *block, uint8_t *to);
void des(const uint8_t *key, const uint8_t *block, uint8_t *to);
void des_back(const uint8_t *key, const uint8_t *block, uint8_t *to);

// Encrypt, decrypt, encrypt under K1, K2, K1.
void tdes(const uint8_t *key1, const uint8_t *key2, const uint8_t *block, uint8_t *to);

#endif
