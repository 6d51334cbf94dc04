// The AES rows that are the same for every peer. A file that includes this one has before it, over its library:
//
//     aes_key                                 key schedules of one key
//     aes_set, aes_set_back, aes_set_both     makes them: to encrypt, to decrypt, or for both
//     aes_run, aes_run_back                   a block under them; the text may be where its result goes
//     aes_run_two                             two blocks, in place
//     mode_ofb, mode_cmac                     a whole call: OFB, and CMAC of at least a byte
//     aes_pass                                the work on a frame, below
//
// peer_chains.h has all from aes_run_two on, over the first of them. EVP has its own modes.
#ifndef HERNOTXAK_BENCH_PEER_AES_H
#define HERNOTXAK_BENCH_PEER_AES_H

#include "peer.h"

// ---- one call

// A block under a new key, and back.
static void aes_one(const uint8_t *key, const uint8_t *text, uint8_t *out)
{
    aes_key k;

    aes_set(&k, key);
    aes_run(&k, text, out);
}

static void aes_one_back(const uint8_t *key, const uint8_t *text, uint8_t *out)
{
    aes_key k;

    aes_set_back(&k, key);
    aes_run_back(&k, text, out);
}

static void aes_block(const struct input *in, uint8_t *out)
{
    aes_one(in->key, in->text, out);
}

static void aes_block_back(const struct input *in, uint8_t *out)
{
    aes_one_back(in->key, in->text, out);
}

static void aes_ofb(const struct input *in, uint8_t *out)
{
    mode_ofb(in->key, in->iv, in->text, AES_TEXT, out);
}

static void aes_cmac(const struct input *in, uint8_t *out)
{
    mode_cmac(in->key, in->text, AES_TEXT, out);
}

// ---- derivation

static void aes_derive(const struct input *in, uint8_t *out)
{
    const struct lists *lists = &in->aes_lists;
    const uint8_t *found[2 * NODES];
    uint8_t *group = out + ANSWER;
    int areas, services;

    if (key_twice(lists->keys)) {
        put_answer(out, KEY_TWICE, 0, 0);
        return;
    }
    areas = needed_keys(lists, lists->areas, 0, AES_MARK, found, out);
    if (areas < 0)
        return;
    services = needed_keys(lists, lists->services, 1, AES_MARK, found + areas, out);
    if (services < 0)
        return;
    memset(group, 0, AES_BLOCK);
    group[0] = 0x01;
    group[1] = 0x01;
    group[15] = 0x80;
    under_each(aes_one, found, areas + services, group);
    memcpy(group + AES_BLOCK, in->key, AES_BLOCK);
    put_answer(out, AES_MARK << 8, AES_DERIVED, 0);
}

// ---- challenges

// The key of alpha and beta.
static void set_challenge_keys(const struct input *in, aes_key *k)
{
    uint8_t h[AES_BLOCK];

    for (int i = 0; i < AES_BLOCK; i++)
        h[i] = in->derived[i] ^ in->derived[AES_BLOCK + i];
    aes_set(k, h);
}

// What is encrypted as alpha for 1, as beta for 2.
static void challenge_block(const struct input *in, uint8_t which, uint8_t *block)
{
    memset(block, 0, AES_BLOCK);
    block[0] = which;
    block[1] = 0x02;
    memcpy(block + 6, in->idm, IDM);
    block[14] = 0x01;
}

// Challenge 3C is in beta.
static void add_third(const struct input *in, uint8_t *beta)
{
    for (int i = 0; i < 4; i++)
        beta[i] ^= in->credentials[THIRD + i];
}

// Alpha for 1 and beta for 2.
static void challenge_key(const struct input *in, uint8_t which, uint8_t *key)
{
    aes_key k;

    set_challenge_keys(in, &k);
    challenge_block(in, which, key);
    aes_run(&k, key, key);
    if (which == 2)
        add_third(in, key);
}

// Both, for a whole authentication.
static void both_challenge_keys(const struct input *in, uint8_t *alpha, uint8_t *beta)
{
    aes_key k;

    set_challenge_keys(in, &k);
    challenge_block(in, 1, alpha);
    challenge_block(in, 2, beta);
    aes_run_two(&k, alpha, beta);
    add_third(in, beta);
}

// What is made or read under alpha or beta.
static void aes_challenge(const struct input *in, uint8_t which, block_function *under, const uint8_t *text, uint8_t *out)
{
    uint8_t key[AES_BLOCK];

    challenge_key(in, which, key);
    under(key, text, out + ANSWER);
    put_answer(out, 0, AES_BLOCK, 0);
}

static void aes_make_1a(const struct input *in, uint8_t *out)
{
    aes_challenge(in, 1, aes_one, in->randoms[in->which], out);
}

static void aes_read_1a(const struct input *in, uint8_t *out)
{
    aes_challenge(in, 1, aes_one_back, in->given, out);
}

static void aes_make_1b(const struct input *in, uint8_t *out)
{
    aes_challenge(in, 2, aes_one, in->randoms[in->which], out);
}

static void aes_check(const aes_key *k, const uint8_t *random, const uint8_t *given, uint8_t *out)
{
    uint8_t wanted[AES_BLOCK];

    aes_run(k, random, wanted);
    put_answer(out, same(wanted, given, AES_BLOCK) ? 0 : WRONG_MAC, 0, 0);
}

static void aes_check_1b(const struct input *in, uint8_t *out)
{
    uint8_t beta[AES_BLOCK];
    aes_key k;

    challenge_key(in, 2, beta);
    aes_set(&k, beta);
    aes_check(&k, in->randoms[0], in->given, out);
}

static void session_keys_of(const uint8_t *random_2, uint8_t *out)
{
    static const uint8_t blocks[SESSION_KEYS] = {0x01, 0x03, [14] = 0x01, [16] = 0x02, 0x03, [30] = 0x01};
    aes_key k;

    aes_set(&k, random_2);
    memcpy(out, blocks, SESSION_KEYS);
    aes_run_two(&k, out, out + AES_BLOCK);
}

static void aes_keys(const struct input *in, uint8_t *out)
{
    session_keys_of(in->randoms[1], out + ANSWER);
    put_answer(out, 0, SESSION_KEYS, 0);
}

// 1A, random 2 and 2B. Alpha and beta are made once, and their key schedules too.
static void aes_reader(const struct input *in, uint8_t *out)
{
    uint8_t alpha[AES_BLOCK], beta[AES_BLOCK];
    aes_key a, b;
    uint8_t *to = out + ANSWER;

    both_challenge_keys(in, alpha, beta);
    aes_set(&a, alpha);
    aes_set_both(&b, beta);
    aes_run(&a, in->randoms[0], to);
    aes_check(&b, in->randoms[0], in->given, out);
    aes_run_back(&b, in->given + AES_BLOCK, to + AES_BLOCK);
    aes_run(&a, to + AES_BLOCK, to + 2 * AES_BLOCK);
    session_keys_of(to + AES_BLOCK, to + 3 * AES_BLOCK);
}

// Random 1, 1B and 2A, likewise.
static void aes_card(const struct input *in, uint8_t *out)
{
    uint8_t alpha[AES_BLOCK], beta[AES_BLOCK];
    aes_key a, b;
    uint8_t *to = out + ANSWER;

    both_challenge_keys(in, alpha, beta);
    aes_set_both(&a, alpha);
    aes_set(&b, beta);
    aes_run_back(&a, in->given, to);
    memcpy(to + AES_BLOCK, to, AES_BLOCK);
    memcpy(to + 2 * AES_BLOCK, in->randoms[1], AES_BLOCK);
    aes_run_two(&b, to + AES_BLOCK, to + 2 * AES_BLOCK);
    aes_check(&a, in->randoms[1], in->given + AES_BLOCK, out);
    session_keys_of(in->randoms[1], to + 3 * AES_BLOCK);
}

// ---- frames

// The blocks that a frame of n bytes starts with: the IV, and the first block of the MAC, which is 19, IV bytes 1..13, and n with its
// high byte first. The number is given as it stands in the frame.
static void start_frame(const struct input *in, const uint8_t *number, size_t n, struct aes_frame *f)
{
    uint8_t *iv = f->stream;

    iv[0] = 1;
    iv[1] = (uint8_t)(n + 12);
    iv[2] = in->code;
    memcpy(iv + 3, number, 2);
    memcpy(iv + 5, in->id, ID);
    memcpy(iv + 11, in->credentials + THIRD + 1, 3);
    iv[14] = 0;
    iv[15] = 0;
    f->mac[0] = 0x19;
    memcpy(f->mac + 1, iv + 1, 13);
    f->mac[14] = (uint8_t)(n >> 8);
    f->mac[15] = (uint8_t)n;
    f->n = n;
}

// The MAC as it stands in the frame is that of the payload with the key stream added; and the other way round.
static void add_mac(const uint8_t *a, const uint8_t *b, uint8_t *out)
{
    uint64_t x, y;

    memcpy(&x, a, MAC);
    memcpy(&y, b, MAC);
    x ^= y;
    memcpy(out, &x, MAC);
}

static void aes_seal(const struct input *in, uint8_t *out)
{
    const size_t n = in->payload;
    uint8_t *sealed = out + ANSWER;
    struct aes_frame f;

    put_number(sealed, in->number);
    start_frame(in, sealed, n, &f);
    f.from = in->text;
    f.to = sealed + 2;
    f.opens = 0;
    aes_pass(in->credentials, &f);
    add_mac(f.mac, f.stream, sealed + 2 + n);
    put_sealed(out, n + AES_ADDED, 0);
}

// Opens what has a number above this one.
static void aes_open_above(const struct input *in, int above, uint8_t *out)
{
    const size_t n = in->given_n - AES_ADDED;
    uint8_t plain[AES_TEXT];
    uint8_t mac[MAC];
    struct aes_frame f;

    start_frame(in, in->given, n, &f);
    f.from = in->given + 2;
    f.to = plain;
    f.opens = 1;
    aes_pass(in->credentials, &f);
    add_mac(in->given + 2 + n, f.stream, mac);
    if (!same(mac, f.mac, MAC)) {
        put_answer(out, WRONG_MAC, 0, 0);
        return;
    }
    if ((int)number_at(in->given) <= above) {
        put_answer(out, NOT_ABOVE, 0, 0);
        return;
    }
    memcpy(out + ANSWER, plain, n);
    put_answer(out, 0, n, number_at(in->given));
}

static void aes_open(const struct input *in, uint8_t *out)
{
    aes_open_above(in, -1, out);
}

static void aes_step(const struct input *in, uint8_t *out)
{
    aes_open_above(in, in->number - 1, out);
}

#endif
