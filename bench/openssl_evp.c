// OpenSSL's libcrypto by EVP, its ordinary interface, which uses the processor's AES instructions where there are any. AES alone: for DES
// there are none. Modes are EVP's own. Ciphers are fetched and contexts made once, at the start, since both cost more than a frame.
#include "peer.h"

#include <openssl/core_names.h>
#include <openssl/evp.h>
#include <openssl/opensslv.h>
#include <openssl/params.h>

// As many keys as are at work at a time; they are taken in turn.
enum { KEYS = 4 };

typedef struct {
    EVP_CIPHER_CTX *forth;
    EVP_CIPHER_CTX *back;
} aes_key;

static aes_key keys[KEYS];
static EVP_CIPHER_CTX *ofb;
static EVP_MAC_CTX *cmac;

static void make_key(aes_key *k, EVP_CIPHER *ecb)
{
    k->forth = EVP_CIPHER_CTX_new();
    EVP_EncryptInit_ex2(k->forth, ecb, NULL, NULL, NULL);
    EVP_CIPHER_CTX_set_padding(k->forth, 0);
    k->back = EVP_CIPHER_CTX_new();
    EVP_DecryptInit_ex2(k->back, ecb, NULL, NULL, NULL);
    EVP_CIPHER_CTX_set_padding(k->back, 0);
}

static void start(void)
{
    static char name[] = "AES-128-CBC";
    const OSSL_PARAM params[] = {OSSL_PARAM_construct_utf8_string(OSSL_MAC_PARAM_CIPHER, name, 0), OSSL_PARAM_construct_end()};
    EVP_CIPHER *ecb = EVP_CIPHER_fetch(NULL, "AES-128-ECB", NULL);

    for (int i = 0; i < KEYS; i++)
        make_key(&keys[i], ecb);
    ofb = EVP_CIPHER_CTX_new();
    EVP_EncryptInit_ex2(ofb, EVP_CIPHER_fetch(NULL, "AES-128-OFB", NULL), NULL, NULL, NULL);
    cmac = EVP_MAC_CTX_new(EVP_MAC_fetch(NULL, "CMAC", NULL));
    EVP_MAC_CTX_set_params(cmac, params);
}

static aes_key next_key(void)
{
    static unsigned turn;

    return keys[turn++ % KEYS];
}

static void aes_set(aes_key *k, const uint8_t *key)
{
    *k = next_key();
    EVP_EncryptInit_ex2(k->forth, NULL, key, NULL, NULL);
}

static void aes_set_back(aes_key *k, const uint8_t *key)
{
    *k = next_key();
    EVP_DecryptInit_ex2(k->back, NULL, key, NULL, NULL);
}

static void aes_set_both(aes_key *k, const uint8_t *key)
{
    aes_set(k, key);
    EVP_DecryptInit_ex2(k->back, NULL, key, NULL, NULL);
}

static void aes_run(const aes_key *k, const uint8_t *text, uint8_t *out)
{
    int n;

    EVP_EncryptUpdate(k->forth, out, &n, text, AES_BLOCK);
}

static void aes_run_back(const aes_key *k, const uint8_t *text, uint8_t *out)
{
    int n;

    EVP_DecryptUpdate(k->back, out, &n, text, AES_BLOCK);
}

static void aes_run_two(const aes_key *k, uint8_t *a, uint8_t *b)
{
    aes_run(k, a, a);
    aes_run(k, b, b);
}

static void mode_ofb(const uint8_t *key, const uint8_t *iv, const uint8_t *text, size_t n, uint8_t *out)
{
    int done;

    EVP_EncryptInit_ex2(ofb, NULL, key, iv, NULL);
    EVP_EncryptUpdate(ofb, out, &done, text, (int)n);
}

// By OFB, which costs less than a call for each block.
static void aes_chain(const struct input *in, uint8_t *out)
{
    static const uint8_t zeros[LONG_TEXT];
    static uint8_t stream[LONG_TEXT];

    mode_ofb(in->key, in->iv, zeros, LONG_TEXT, stream);
    memcpy(out, stream + LONG_TEXT - AES_BLOCK, AES_BLOCK);
}

static void mode_cmac(const uint8_t *key, const uint8_t *text, size_t n, uint8_t *mac)
{
    size_t mac_n;

    EVP_MAC_init(cmac, key, AES_BLOCK, NULL);
    EVP_MAC_update(cmac, text, n);
    EVP_MAC_final(cmac, mac, &mac_n, AES_BLOCK);
}

// The block of the key stream behind n bytes, from its start on: what is left of the last one is used up on zeros.
static void next_stream(size_t n, uint8_t *stream)
{
    static const uint8_t zeros[2 * AES_BLOCK];
    uint8_t out[2 * AES_BLOCK];
    const size_t left = (AES_BLOCK - n % AES_BLOCK) % AES_BLOCK;
    int done;

    EVP_EncryptUpdate(ofb, out, &done, zeros, (int)(left + AES_BLOCK));
    memcpy(stream, out + left, AES_BLOCK);
}

static void aes_pass(const uint8_t *credentials, struct aes_frame *f)
{
    size_t mac_n;
    int done;

    EVP_EncryptInit_ex2(ofb, NULL, credentials, f->stream, NULL);
    if (f->n > 0)
        EVP_EncryptUpdate(ofb, f->to, &done, f->from, (int)f->n);
    next_stream(f->n, f->stream);
    EVP_MAC_init(cmac, credentials + AES_BLOCK, AES_BLOCK, NULL);
    EVP_MAC_update(cmac, f->mac, AES_BLOCK);
    if (f->n > 0)
        EVP_MAC_update(cmac, f->opens ? f->to : f->from, f->n);
    EVP_MAC_final(cmac, f->mac, &mac_n, AES_BLOCK);
}

#include "peer_aes.h"

const struct contestant openssl_evp = {
    "OpenSSL " OPENSSL_VERSION_STR,
    start,
    {AES_OPERATIONS},
};
