// BearSSL's constant-time code in words of 32 bits: AES with two blocks side by side, and DES. No place that it reads depends on a key or
// on data. BearSSL's header has these block functions only under its modes, so they are declared here, as its sources have them. Nor does
// the header have a version: bench/build gives it.
#include "peer.h"

void br_aes_ct_ortho(uint32_t *q);
unsigned br_aes_ct_keysched(uint32_t *compressed, const void *key, size_t key_n);
void br_aes_ct_skey_expand(uint32_t *expanded, unsigned rounds, const uint32_t *compressed);
void br_aes_ct_bitslice_encrypt(unsigned rounds, const uint32_t *expanded, uint32_t *q);
void br_aes_ct_bitslice_decrypt(unsigned rounds, const uint32_t *expanded, uint32_t *q);
unsigned br_des_ct_keysched(uint32_t *compressed, const void *key, size_t key_n);
void br_des_ct_skey_expand(uint32_t *expanded, unsigned count, const uint32_t *compressed);
void br_des_ct_process_block(unsigned count, const uint32_t *expanded, void *block);
void br_des_rev_skey(uint32_t *compressed);

enum {
    AES_ROUNDS = 10,
    AES_COMPRESSED = 44,
    AES_EXPANDED = 88,
    DES_COMPRESSED = 32,
    DES_EXPANDED = 96
};

static void start(void)
{
}

// ---- AES. A key schedule is the same for both ways.
typedef struct {
    uint32_t words[AES_EXPANDED];
} aes_key;

static void aes_set(aes_key *k, const uint8_t *key)
{
    uint32_t compressed[AES_COMPRESSED];

    br_aes_ct_keysched(compressed, key, AES_BLOCK);
    br_aes_ct_skey_expand(k->words, AES_ROUNDS, compressed);
}

#define aes_set_back aes_set
#define aes_set_both aes_set

// A block is every second word of q, from 0 or 1 on.
static void load(uint32_t *q, const uint8_t *block)
{
    for (int i = 0; i < 4; i++)
        memcpy(q + 2 * i, block + 4 * i, 4);
}

static void store(const uint32_t *q, uint8_t *block)
{
    for (int i = 0; i < 4; i++)
        memcpy(block + 4 * i, q + 2 * i, 4);
}

static void load_one(uint32_t *q, const uint8_t *block)
{
    load(q, block);
    q[1] = q[3] = q[5] = q[7] = 0;
    br_aes_ct_ortho(q);
}

static void aes_run(const aes_key *k, const uint8_t *text, uint8_t *out)
{
    uint32_t q[8];

    load_one(q, text);
    br_aes_ct_bitslice_encrypt(AES_ROUNDS, k->words, q);
    br_aes_ct_ortho(q);
    store(q, out);
}

static void aes_run_back(const aes_key *k, const uint8_t *text, uint8_t *out)
{
    uint32_t q[8];

    load_one(q, text);
    br_aes_ct_bitslice_decrypt(AES_ROUNDS, k->words, q);
    br_aes_ct_ortho(q);
    store(q, out);
}

#define OWN_LANES
static void aes_run_two(const aes_key *k, uint8_t *a, uint8_t *b)
{
    uint32_t q[8];

    load(q, a);
    load(q + 1, b);
    br_aes_ct_ortho(q);
    br_aes_ct_bitslice_encrypt(AES_ROUNDS, k->words, q);
    br_aes_ct_ortho(q);
    store(q, a);
    store(q + 1, b);
}

// The even bits of a key schedule are for the first block, the odd ones for the second: so one has the MAC key for the one and the cipher
// key for the other.
typedef aes_key frame_keys;

static void frame_set(frame_keys *k, const uint8_t *cipher, const uint8_t *mac)
{
    const uint32_t even = 0x55555555;
    uint32_t c[AES_COMPRESSED], m[AES_COMPRESSED];

    br_aes_ct_keysched(c, cipher, AES_BLOCK);
    br_aes_ct_keysched(m, mac, AES_BLOCK);
    for (int i = 0; i < AES_COMPRESSED; i++) {
        k->words[2 * i] = (m[i] & even) | (c[i] & even) << 1;
        k->words[2 * i + 1] = (m[i] >> 1 & even) | (c[i] & ~even);
    }
}

static void frame_one(const frame_keys *k, uint8_t *mac)
{
    aes_run(k, mac, mac);
}

static void frame_two(const frame_keys *k, uint8_t *mac, uint8_t *stream)
{
    aes_run_two(k, mac, stream);
}

static void frame_three(const frame_keys *k, uint8_t *subkey, uint8_t *mac, uint8_t *stream)
{
    frame_one(k, subkey);
    frame_two(k, mac, stream);
}

// ---- DES: a block at a time.
typedef struct {
    uint32_t forth[DES_EXPANDED];
    uint32_t back[DES_EXPANDED];
} des_key;

static void des_set(des_key *k, const uint8_t *key)
{
    uint32_t compressed[DES_COMPRESSED];

    br_des_ct_keysched(compressed, key, DES_BLOCK);
    br_des_ct_skey_expand(k->forth, 1, compressed);
}

static void des_set_back(des_key *k, const uint8_t *key)
{
    uint32_t compressed[DES_COMPRESSED];

    br_des_ct_keysched(compressed, key, DES_BLOCK);
    br_des_rev_skey(compressed);
    br_des_ct_skey_expand(k->back, 1, compressed);
}

static void des_set_both(des_key *k, const uint8_t *key)
{
    uint32_t compressed[DES_COMPRESSED];

    br_des_ct_keysched(compressed, key, DES_BLOCK);
    br_des_ct_skey_expand(k->forth, 1, compressed);
    br_des_rev_skey(compressed);
    br_des_ct_skey_expand(k->back, 1, compressed);
}

static void des_run(const des_key *k, const uint8_t *text, uint8_t *out)
{
    memmove(out, text, DES_BLOCK);
    br_des_ct_process_block(1, k->forth, out);
}

static void des_run_back(const des_key *k, const uint8_t *text, uint8_t *out)
{
    memmove(out, text, DES_BLOCK);
    br_des_ct_process_block(1, k->back, out);
}

#include "peer_chains.h"

#include "peer_aes.h"
#include "peer_des.h"

const struct contestant bearssl_ct = {
    "BearSSL " BEARSSL_VERSION,
    start,
    {AES_OPERATIONS, DES_OPERATIONS},
};
