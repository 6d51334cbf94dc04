// OpenSSL's libcrypto, by its low-level block functions: DES in portable C, AES in assembly that does not use the processor's AES
// instructions. They are deprecated in favour of EVP, whose calls cost more than a block; for a comparison of ciphers they are the
// stronger opponent.
#define OPENSSL_SUPPRESS_DEPRECATED
#include "peer.h"

#include <openssl/aes.h>
#include <openssl/des.h>
#include <openssl/opensslv.h>

static void start(void)
{
}

typedef struct {
    AES_KEY forth;
    AES_KEY back;
} aes_key;

static void aes_set(aes_key *k, const uint8_t *key)
{
    AES_set_encrypt_key(key, 128, &k->forth);
}

static void aes_set_back(aes_key *k, const uint8_t *key)
{
    AES_set_decrypt_key(key, 128, &k->back);
}

static void aes_set_both(aes_key *k, const uint8_t *key)
{
    AES_set_encrypt_key(key, 128, &k->forth);
    AES_set_decrypt_key(key, 128, &k->back);
}

static void aes_run(const aes_key *k, const uint8_t *text, uint8_t *out)
{
    AES_encrypt(text, out, &k->forth);
}

static void aes_run_back(const aes_key *k, const uint8_t *text, uint8_t *out)
{
    AES_decrypt(text, out, &k->back);
}

typedef DES_key_schedule des_key;

// OpenSSL's types lack the const of what is only read.
static des_key *schedule_of(const des_key *k)
{
    return (des_key *)(uintptr_t)k;
}

static void des_set(des_key *k, const uint8_t *key)
{
    DES_set_key_unchecked((DES_cblock *)(uintptr_t)key, k);
}

#define des_set_back des_set
#define des_set_both des_set

// A block is two words, low byte first, as this processor has them.
static void des_way(const des_key *k, const uint8_t *text, uint8_t *out, int way)
{
    DES_LONG words[2];

    memcpy(words, text, DES_BLOCK);
    DES_encrypt1(words, schedule_of(k), way);
    memcpy(out, words, DES_BLOCK);
}

static void des_run(const des_key *k, const uint8_t *text, uint8_t *out)
{
    des_way(k, text, out, DES_ENCRYPT);
}

static void des_run_back(const des_key *k, const uint8_t *text, uint8_t *out)
{
    des_way(k, text, out, DES_DECRYPT);
}

// Triple DES is a function of the library, which spares the permutations between its three.
#define OWN_TDES
static void tdes_run(const des_key *k1, const des_key *k2, const uint8_t *text, uint8_t *out)
{
    DES_LONG words[2];

    memcpy(words, text, DES_BLOCK);
    DES_encrypt3(words, schedule_of(k1), schedule_of(k2), schedule_of(k1));
    memcpy(out, words, DES_BLOCK);
}

static void tdes_run_back(const des_key *k1, const des_key *k2, const uint8_t *text, uint8_t *out)
{
    DES_LONG words[2];

    memcpy(words, text, DES_BLOCK);
    DES_decrypt3(words, schedule_of(k1), schedule_of(k2), schedule_of(k1));
    memcpy(out, words, DES_BLOCK);
}

#include "peer_chains.h"

#include "peer_aes.h"
#include "peer_des.h"

const struct contestant openssl = {
    "OpenSSL " OPENSSL_VERSION_STR,
    start,
    {AES_OPERATIONS, DES_OPERATIONS},
};
