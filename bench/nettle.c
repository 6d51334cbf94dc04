// nettle: DES in portable C. Its AES uses the processor's AES instructions or is assembly with tables: which, is decided where the library
// is loaded (contestants.c). Its block functions, without its modes.
#include "peer.h"

#include <nettle/aes.h>
#include <nettle/des.h>
#include <nettle/version.h>

#define TEXT_OF(number) #number
#define TEXT(number) TEXT_OF(number)

static void start(void)
{
}

typedef struct {
    struct aes128_ctx forth;
    struct aes128_ctx back;
} aes_key;

static void aes_set(aes_key *k, const uint8_t *key)
{
    aes128_set_encrypt_key(&k->forth, key);
}

static void aes_set_back(aes_key *k, const uint8_t *key)
{
    aes128_set_decrypt_key(&k->back, key);
}

static void aes_set_both(aes_key *k, const uint8_t *key)
{
    aes128_set_encrypt_key(&k->forth, key);
    aes128_invert_key(&k->back, &k->forth);
}

static void aes_run(const aes_key *k, const uint8_t *text, uint8_t *out)
{
    aes128_encrypt(&k->forth, AES_BLOCK, out, text);
}

static void aes_run_back(const aes_key *k, const uint8_t *text, uint8_t *out)
{
    aes128_decrypt(&k->back, AES_BLOCK, out, text);
}

typedef struct des_ctx des_key;

static void des_set_both(des_key *k, const uint8_t *key)
{
    des_set_key(k, key);
}

#define des_set des_set_both
#define des_set_back des_set_both

static void des_run(const des_key *k, const uint8_t *text, uint8_t *out)
{
    des_encrypt(k, DES_BLOCK, out, text);
}

static void des_run_back(const des_key *k, const uint8_t *text, uint8_t *out)
{
    des_decrypt(k, DES_BLOCK, out, text);
}

// One call for all blocks, which it takes in turn.
#define OWN_ALL_BACK
static void des_run_all_back(const des_key *k, const uint8_t *text, size_t n, uint8_t *out)
{
    des_decrypt(k, n, out, text);
}

#include "peer_chains.h"

#include "peer_aes.h"
#include "peer_des.h"

const struct contestant nettle = {
    "nettle " TEXT(NETTLE_VERSION_MAJOR) "." TEXT(NETTLE_VERSION_MINOR),
    start,
    {AES_OPERATIONS, DES_OPERATIONS},
};
