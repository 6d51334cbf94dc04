// libtomcrypt: portable C throughout. Its block functions, without its modes.
#include "peer.h"

#include <tomcrypt.h>

static void start(void)
{
}

// The library's types lack the const of what is only read.
static symmetric_key *schedule_of(const symmetric_key *k)
{
    return (symmetric_key *)(uintptr_t)k;
}

typedef symmetric_key aes_key;

// The AES that only encrypts spares half of the key schedule.
static void aes_set(aes_key *k, const uint8_t *key)
{
    aes_enc_setup(key, AES_BLOCK, 0, k);
}

static void aes_set_both(aes_key *k, const uint8_t *key)
{
    aes_setup(key, AES_BLOCK, 0, k);
}

#define aes_set_back aes_set_both

static void aes_run(const aes_key *k, const uint8_t *text, uint8_t *out)
{
    aes_enc_ecb_encrypt(text, out, schedule_of(k));
}

static void aes_run_back(const aes_key *k, const uint8_t *text, uint8_t *out)
{
    aes_ecb_decrypt(text, out, schedule_of(k));
}

// A DES key has both key schedules, whichever is needed.
typedef symmetric_key des_key;

static void des_set(des_key *k, const uint8_t *key)
{
    des_setup(key, DES_BLOCK, 0, k);
}

#define des_set_back des_set
#define des_set_both des_set

static void des_run(const des_key *k, const uint8_t *text, uint8_t *out)
{
    des_ecb_encrypt(text, out, schedule_of(k));
}

static void des_run_back(const des_key *k, const uint8_t *text, uint8_t *out)
{
    des_ecb_decrypt(text, out, schedule_of(k));
}

#include "peer_chains.h"

#include "peer_aes.h"
#include "peer_des.h"

const struct contestant tomcrypt = {
    "libtomcrypt " SCRYPT,
    start,
    {AES_OPERATIONS, DES_OPERATIONS},
};
