// BearSSL's constant-time AES in words of 64 bits, with four blocks side by side. Its DES is that of bearssl_ct.c, so there is none here.
#include "peer.h"

void br_aes_ct64_ortho(uint64_t *q);
void br_aes_ct64_interleave_in(uint64_t *q0, uint64_t *q1, const uint32_t *words);
void br_aes_ct64_interleave_out(uint32_t *words, uint64_t q0, uint64_t q1);
unsigned br_aes_ct64_keysched(uint64_t *compressed, const void *key, size_t key_n);
void br_aes_ct64_skey_expand(uint64_t *expanded, unsigned rounds, const uint64_t *compressed);
void br_aes_ct64_bitslice_encrypt(unsigned rounds, const uint64_t *expanded, uint64_t *q);
void br_aes_ct64_bitslice_decrypt(unsigned rounds, const uint64_t *expanded, uint64_t *q);

enum {
    AES_ROUNDS = 10,
    AES_COMPRESSED = 22,
    AES_EXPANDED = 88
};

static void start(void)
{
}

// A key schedule is the same for both ways.
typedef struct {
    uint64_t words[AES_EXPANDED];
} aes_key;

static void aes_set(aes_key *k, const uint8_t *key)
{
    uint64_t compressed[AES_COMPRESSED];

    br_aes_ct64_keysched(compressed, key, AES_BLOCK);
    br_aes_ct64_skey_expand(k->words, AES_ROUNDS, compressed);
}

#define aes_set_back aes_set
#define aes_set_both aes_set

// A block's words are interleaved in two words of q: number i in q[i] and q[i + 4].
static void load(uint64_t *q, int i, const uint8_t *block)
{
    uint32_t words[4];

    memcpy(words, block, AES_BLOCK);
    br_aes_ct64_interleave_in(q + i, q + i + 4, words);
}

static void store(const uint64_t *q, int i, uint8_t *block)
{
    uint32_t words[4];

    br_aes_ct64_interleave_out(words, q[i], q[i + 4]);
    memcpy(block, words, AES_BLOCK);
}

static void encrypt(const uint64_t *k, uint64_t *q)
{
    br_aes_ct64_ortho(q);
    br_aes_ct64_bitslice_encrypt(AES_ROUNDS, k, q);
    br_aes_ct64_ortho(q);
}

static void aes_run(const aes_key *k, const uint8_t *text, uint8_t *out)
{
    uint64_t q[8] = {0};

    load(q, 0, text);
    encrypt(k->words, q);
    store(q, 0, out);
}

static void aes_run_back(const aes_key *k, const uint8_t *text, uint8_t *out)
{
    uint64_t q[8] = {0};

    load(q, 0, text);
    br_aes_ct64_ortho(q);
    br_aes_ct64_bitslice_decrypt(AES_ROUNDS, k->words, q);
    br_aes_ct64_ortho(q);
    store(q, 0, out);
}

#define OWN_LANES
static void aes_run_two(const aes_key *k, uint8_t *a, uint8_t *b)
{
    uint64_t q[8] = {0};

    load(q, 0, a);
    load(q, 1, b);
    encrypt(k->words, q);
    store(q, 0, a);
    store(q, 1, b);
}

// Of four bits of a key schedule each is for one block: so one has the MAC key for blocks 0 and 1, the cipher key for 2 and 3.
typedef aes_key frame_keys;

static void frame_set(frame_keys *k, const uint8_t *cipher, const uint8_t *mac)
{
    const uint64_t lowest = 0x1111111111111111;
    uint64_t c[AES_COMPRESSED], m[AES_COMPRESSED];

    br_aes_ct64_keysched(c, cipher, AES_BLOCK);
    br_aes_ct64_keysched(m, mac, AES_BLOCK);
    for (int i = 0; i < AES_COMPRESSED; i++)
        for (int bit = 0; bit < 4; bit++)
            k->words[4 * i + bit] = (m[i] >> bit & lowest) * 3 + (c[i] >> bit & lowest) * 12;
}

static void frame_one(const frame_keys *k, uint8_t *mac)
{
    aes_run(k, mac, mac);
}

static void frame_two(const frame_keys *k, uint8_t *mac, uint8_t *stream)
{
    uint64_t q[8] = {0};

    load(q, 1, mac);
    load(q, 2, stream);
    encrypt(k->words, q);
    store(q, 1, mac);
    store(q, 2, stream);
}

static void frame_three(const frame_keys *k, uint8_t *subkey, uint8_t *mac, uint8_t *stream)
{
    uint64_t q[8] = {0};

    load(q, 0, subkey);
    load(q, 1, mac);
    load(q, 2, stream);
    encrypt(k->words, q);
    store(q, 0, subkey);
    store(q, 1, mac);
    store(q, 2, stream);
}

#include "peer_chains.h"

#include "peer_aes.h"

const struct contestant bearssl_ct64 = {
    "",
    start,
    {AES_OPERATIONS},
};
