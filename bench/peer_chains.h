// OFB, CMAC and the work on an AES frame, over a peer's block function alone: no mode of the library, a key schedule once for each key,
// and MAC and key stream in one pass. A file that includes this one has the first three lines of peer_aes.h before it.
//
// A library that takes several blocks at a time defines OWN_LANES, and has aes_run_two and the functions of frame_keys of its own.
#ifndef HERNOTXAK_BENCH_PEER_CHAINS_H
#define HERNOTXAK_BENCH_PEER_CHAINS_H

#include "peer.h"

#ifndef OWN_LANES
static void aes_run_two(const aes_key *k, uint8_t *a, uint8_t *b)
{
    aes_run(k, a, a);
    aes_run(k, b, b);
}

// Both keys of a frame.
typedef struct {
    aes_key cipher;
    aes_key mac;
} frame_keys;

static void frame_set(frame_keys *k, const uint8_t *cipher, const uint8_t *mac)
{
    aes_set(&k->cipher, cipher);
    aes_set(&k->mac, mac);
}

// A block under the MAC key, in place.
static void frame_one(const frame_keys *k, uint8_t *mac)
{
    aes_run(&k->mac, mac, mac);
}

// The same and a block under the cipher key.
static void frame_two(const frame_keys *k, uint8_t *mac, uint8_t *stream)
{
    aes_run(&k->mac, mac, mac);
    aes_run(&k->cipher, stream, stream);
}

// Two blocks under the MAC key and one under the cipher key.
static void frame_three(const frame_keys *k, uint8_t *subkey, uint8_t *mac, uint8_t *stream)
{
    aes_run(&k->mac, subkey, subkey);
    frame_two(k, mac, stream);
}
#endif

static void add_block(uint8_t *to, const uint8_t *from)
{
    uint64_t a[2], b[2];

    memcpy(a, to, AES_BLOCK);
    memcpy(b, from, AES_BLOCK);
    a[0] ^= b[0];
    a[1] ^= b[1];
    memcpy(to, a, AES_BLOCK);
}

// The next subkey of CMAC: x shifted by a bit, and 0x87 added where a bit fell out.
static void double_subkey(uint8_t *x)
{
    uint64_t high, low;

    memcpy(&high, x, 8);
    memcpy(&low, x + 8, 8);
    high = __builtin_bswap64(high);
    low = __builtin_bswap64(low);
    const uint64_t over = (high >> 63) * 0x87;
    high = __builtin_bswap64(high << 1 | low >> 63);
    low = __builtin_bswap64(low << 1 ^ over);
    memcpy(x, &high, 8);
    memcpy(x + 8, &low, 8);
}

static void aes_chain(const struct input *in, uint8_t *out)
{
    aes_key k;

    aes_set(&k, in->key);
    memcpy(out, in->iv, AES_BLOCK);
    for (int i = 0; i < AES_BLOCKS; i++)
        aes_run(&k, out, out);
}

static void mode_ofb(const uint8_t *key, const uint8_t *iv, const uint8_t *text, size_t n, uint8_t *out)
{
    aes_key k;
    uint8_t stream[AES_BLOCK];

    aes_set(&k, key);
    memcpy(stream, iv, AES_BLOCK);
    for (; n >= AES_BLOCK; n -= AES_BLOCK, text += AES_BLOCK, out += AES_BLOCK) {
        aes_run(&k, stream, stream);
        memcpy(out, text, AES_BLOCK);
        add_block(out, stream);
    }
    if (n > 0)
        aes_run(&k, stream, stream);
    for (size_t i = 0; i < n; i++)
        out[i] = text[i] ^ stream[i];
}

// The last block of CMAC, of n bytes, before it is encrypted: 80 behind it where it is not whole, and the subkey of that.
static void add_last(uint8_t *mac, const uint8_t *text, size_t n, uint8_t *subkey)
{
    double_subkey(subkey);
    if (n == AES_BLOCK) {
        add_block(mac, text);
    } else {
        for (size_t i = 0; i < n; i++)
            mac[i] ^= text[i];
        mac[n] ^= 0x80;
        double_subkey(subkey);
    }
    add_block(mac, subkey);
}

// The subkey is made with the first block, which does not need it where others follow.
static void mode_cmac(const uint8_t *key, const uint8_t *text, size_t n, uint8_t *mac)
{
    aes_key k;
    uint8_t subkey[AES_BLOCK] = {0};

    aes_set(&k, key);
    if (n <= AES_BLOCK) {
        memset(mac, 0, AES_BLOCK);
        aes_run(&k, subkey, subkey);
    } else {
        memcpy(mac, text, AES_BLOCK);
        aes_run_two(&k, subkey, mac);
        for (n -= AES_BLOCK, text += AES_BLOCK; n > AES_BLOCK; n -= AES_BLOCK, text += AES_BLOCK) {
            add_block(mac, text);
            aes_run(&k, mac, mac);
        }
    }
    add_last(mac, text, n, subkey);
    aes_run(&k, mac, mac);
}

// A block of the payload: the key stream is added to it, and the plain one to the MAC.
static void whole_block(struct aes_frame *f, size_t at)
{
    uint8_t other[AES_BLOCK];

    memcpy(other, f->from + at, AES_BLOCK);
    add_block(other, f->stream);
    add_block(f->mac, f->opens ? other : f->from + at);
    memcpy(f->to + at, other, AES_BLOCK);
}

// The last block, likewise.
static void last_block(struct aes_frame *f, size_t at, uint8_t *subkey)
{
    const size_t n = f->n - at;

    if (n < AES_BLOCK) {
        for (size_t i = 0; i < n; i++)
            f->to[at + i] = f->from[at + i] ^ f->stream[i];
    } else {
        memcpy(f->to + at, f->from + at, AES_BLOCK);
        add_block(f->to + at, f->stream);
    }
    add_last(f->mac, (f->opens ? f->to : f->from) + at, n, subkey);
}

static void aes_pass(const uint8_t *credentials, struct aes_frame *f)
{
    frame_keys k;
    uint8_t subkey[AES_BLOCK] = {0};
    size_t at = 0;

    frame_set(&k, credentials, credentials + AES_BLOCK);
    if (f->n == 0) {
        frame_two(&k, subkey, f->stream);
        double_subkey(subkey);
        add_block(f->mac, subkey);
        frame_one(&k, f->mac);
        return;
    }
    frame_three(&k, subkey, f->mac, f->stream);
    for (; f->n - at > AES_BLOCK; at += AES_BLOCK) {
        whole_block(f, at);
        frame_two(&k, f->mac, f->stream);
    }
    last_block(f, at, subkey);
    frame_two(&k, f->mac, f->stream);
}

#endif
