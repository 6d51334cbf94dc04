// The DES rows that are the same for every peer: C over its block function, without its modes. A file that includes this one has before it,
// over its library:
//
//     des_key                                 key schedules of one key
//     des_set, des_set_back, des_set_both     makes them: to encrypt, to decrypt, or for both
//     des_run, des_run_back                   a block under them; the text may be where its result goes
//
// and, if it defines OWN_TDES, tdes_run and tdes_run_back; if OWN_ALL_BACK, des_run_all_back.
#ifndef HERNOTXAK_BENCH_PEER_DES_H
#define HERNOTXAK_BENCH_PEER_DES_H

#include "peer.h"

#ifndef OWN_TDES
// The first key has to be set for the way, the second for the other one.
static void tdes_run(const des_key *k1, const des_key *k2, const uint8_t *text, uint8_t *out)
{
    des_run(k1, text, out);
    des_run_back(k2, out, out);
    des_run(k1, out, out);
}

static void tdes_run_back(const des_key *k1, const des_key *k2, const uint8_t *text, uint8_t *out)
{
    des_run_back(k1, text, out);
    des_run(k2, out, out);
    des_run_back(k1, out, out);
}
#endif

#ifndef OWN_ALL_BACK
// Decrypts each block of n bytes.
static void des_run_all_back(const des_key *k, const uint8_t *text, size_t n, uint8_t *out)
{
    for (size_t at = 0; at < n; at += DES_BLOCK)
        des_run_back(k, text + at, out + at);
}
#endif

static void add_eight(uint8_t *to, const uint8_t *from)
{
    uint64_t a, b;

    memcpy(&a, to, DES_BLOCK);
    memcpy(&b, from, DES_BLOCK);
    a ^= b;
    memcpy(to, &a, DES_BLOCK);
}

// ---- one call

// A block under a new key, and back.
static void des_one(const uint8_t *key, const uint8_t *text, uint8_t *out)
{
    des_key k;

    des_set(&k, key);
    des_run(&k, text, out);
}

static void des_one_back(const uint8_t *key, const uint8_t *text, uint8_t *out)
{
    des_key k;

    des_set_back(&k, key);
    des_run_back(&k, text, out);
}

// A block of CBC. The state is the block before.
static void cbc_step(const des_key *k, uint8_t *state, const uint8_t *text, uint8_t *out)
{
    add_eight(state, text);
    des_run(k, state, state);
    memcpy(out, state, DES_BLOCK);
}

// CBC with a zero IV.
static void mode_cbc(const uint8_t *key, const uint8_t *text, size_t n, uint8_t *out)
{
    des_key k;
    uint8_t state[DES_BLOCK] = {0};

    des_set(&k, key);
    for (size_t at = 0; at < n; at += DES_BLOCK)
        cbc_step(&k, state, text + at, out + at);
}

static void mode_cbc_back(const uint8_t *key, const uint8_t *text, size_t n, uint8_t *out)
{
    des_key k;

    des_set_back(&k, key);
    des_run_all_back(&k, text, n, out);
    for (size_t at = DES_BLOCK; at < n; at += DES_BLOCK)
        add_eight(out + at, text + at - DES_BLOCK);
}

static void des_block(const struct input *in, uint8_t *out)
{
    des_one(in->key, in->text, out);
}

static void des_block_back(const struct input *in, uint8_t *out)
{
    des_one_back(in->key, in->text, out);
}

static void tdes_block(const struct input *in, uint8_t *out)
{
    des_key k1, k2;

    des_set(&k1, in->key);
    des_set_back(&k2, in->key2);
    tdes_run(&k1, &k2, in->text, out);
}

static void des_chain(const struct input *in, uint8_t *out)
{
    mode_cbc(in->key, in->text, LONG_TEXT, out);
}

static void cbc(const struct input *in, uint8_t *out)
{
    mode_cbc(in->key, in->text, DES_TEXT, out);
}

static void cbc_back(const struct input *in, uint8_t *out)
{
    mode_cbc_back(in->key, in->text, DES_TEXT, out);
}

// The fold: a block encrypted under each 8 bytes of the keys in turn, in place.
static void fold(const struct input *in, uint8_t *out)
{
    memcpy(out, in->iv, DES_BLOCK);
    for (size_t at = 0; at < DES_TEXT; at += DES_BLOCK)
        des_one(in->text + at, out, out);
}

static void fold_back(const struct input *in, uint8_t *out)
{
    memcpy(out, in->iv, DES_BLOCK);
    for (size_t at = DES_TEXT; at > 0; at -= DES_BLOCK)
        des_one_back(in->text + at - DES_BLOCK, out, out);
}

// ---- derivation

static void des_derive(const struct input *in, uint8_t *out)
{
    const struct lists *lists = &in->des_lists;
    const uint8_t *found[2 * NODES];
    const uint8_t *system;
    uint8_t *group = out + ANSWER;
    int areas, services;

    if (key_twice(lists->keys)) {
        put_answer(out, KEY_TWICE, 0, 0);
        return;
    }
    system = needed(lists, SYSTEM, DES_MARK, out);
    if (system == NULL)
        return;
    areas = needed_keys(lists, lists->areas, 0, DES_MARK, found, out);
    if (areas < 0)
        return;
    services = needed_keys(lists, lists->services, 1, DES_MARK, found + areas, out);
    if (services < 0)
        return;
    memcpy(group, system, DES_BLOCK);
    under_each(des_one, found, areas, group);
    memcpy(group + DES_BLOCK, group, DES_BLOCK);
    under_each(des_one, found + areas, services, group + DES_BLOCK);
    put_answer(out, DES_MARK << 8, DES_DERIVED, 0);
}

// ---- challenges

// The keys of the challenges, with their key schedules. 1A and 2B are under alpha and L, 1B and 2A under L and beta.
struct des_keys {
    des_key l;
    des_key alpha;
    des_key beta;
};

// L, with the key schedules that are needed of it.
static void make_l(const struct input *in, void set(des_key *, const uint8_t *), struct des_keys *k, uint8_t *l)
{
    memcpy(l, in->derived, DES_BLOCK);
    add_eight(l, in->idm);
    set(&k->l, l);
}

// Beta, and the key schedule of alpha, under which it is made.
static void make_beta(const uint8_t *alpha, const uint8_t *l, struct des_keys *k, uint8_t *beta)
{
    des_set(&k->alpha, alpha);
    des_run(&k->alpha, l, beta);
}

static void des_make_1a(const struct input *in, uint8_t *out)
{
    struct des_keys k;
    uint8_t l[DES_BLOCK], alpha[DES_BLOCK];

    make_l(in, des_set_both, &k, l);
    des_run(&k.l, in->derived + DES_BLOCK, alpha);
    des_set(&k.alpha, alpha);
    tdes_run(&k.alpha, &k.l, in->randoms[in->which], out + ANSWER);
    put_answer(out, 0, DES_BLOCK, 0);
}

static void des_read_1a(const struct input *in, uint8_t *out)
{
    struct des_keys k;
    uint8_t l[DES_BLOCK], alpha[DES_BLOCK];

    make_l(in, des_set, &k, l);
    des_run(&k.l, in->derived + DES_BLOCK, alpha);
    des_set_back(&k.alpha, alpha);
    tdes_run_back(&k.alpha, &k.l, in->given, out + ANSWER);
    put_answer(out, 0, DES_BLOCK, 0);
}

// What 1B is made with.
static void set_for_1b(const struct input *in, struct des_keys *k)
{
    uint8_t l[DES_BLOCK], alpha[DES_BLOCK], beta[DES_BLOCK];

    make_l(in, des_set, k, l);
    des_run(&k->l, in->derived + DES_BLOCK, alpha);
    make_beta(alpha, l, k, beta);
    des_set_back(&k->beta, beta);
}

static void des_make_1b(const struct input *in, uint8_t *out)
{
    struct des_keys k;

    set_for_1b(in, &k);
    tdes_run(&k.l, &k.beta, in->randoms[in->which], out + ANSWER);
    put_answer(out, 0, DES_BLOCK, 0);
}

static void des_check(const des_key *k1, const des_key *k2, const uint8_t *random, const uint8_t *given, uint8_t *out)
{
    uint8_t wanted[DES_BLOCK];

    tdes_run(k1, k2, random, wanted);
    put_answer(out, same(wanted, given, DES_BLOCK) ? 0 : WRONG_MAC, 0, 0);
}

static void des_check_1b(const struct input *in, uint8_t *out)
{
    struct des_keys k;

    set_for_1b(in, &k);
    des_check(&k.l, &k.beta, in->randoms[0], in->given, out);
}

// 1A, random 2 and 2B. Alpha and beta are made once, and every key schedule.
static void des_reader(const struct input *in, uint8_t *out)
{
    struct des_keys k;
    uint8_t l[DES_BLOCK], alpha[DES_BLOCK], beta[DES_BLOCK];
    uint8_t *to = out + ANSWER;

    make_l(in, des_set_both, &k, l);
    des_run(&k.l, in->derived + DES_BLOCK, alpha);
    make_beta(alpha, l, &k, beta);
    des_set_both(&k.beta, beta);
    tdes_run(&k.alpha, &k.l, in->randoms[0], to);
    des_check(&k.l, &k.beta, in->randoms[0], in->given, out);
    tdes_run_back(&k.l, &k.beta, in->given + DES_BLOCK, to + DES_BLOCK);
    tdes_run(&k.alpha, &k.l, to + DES_BLOCK, to + 2 * DES_BLOCK);
}

// Random 1, 1B and 2A, likewise.
static void des_card(const struct input *in, uint8_t *out)
{
    struct des_keys k;
    uint8_t l[DES_BLOCK], alpha[DES_BLOCK], beta[DES_BLOCK];
    uint8_t *to = out + ANSWER;

    make_l(in, des_set_both, &k, l);
    des_run(&k.l, in->derived + DES_BLOCK, alpha);
    des_set_both(&k.alpha, alpha);
    des_run(&k.alpha, l, beta);
    des_set_back(&k.beta, beta);
    tdes_run_back(&k.alpha, &k.l, in->given, to);
    tdes_run(&k.l, &k.beta, to, to + DES_BLOCK);
    tdes_run(&k.l, &k.beta, in->randoms[1], to + 2 * DES_BLOCK);
    des_check(&k.alpha, &k.l, in->randoms[1], in->given + DES_BLOCK, out);
}

// ---- frames

// What the MAC of a plain text of n bytes starts as: it has the length of the whole frame.
static void start_mac(const struct input *in, size_t n, uint8_t *mac)
{
    memset(mac, 0, MAC);
    mac[0] = (uint8_t)(n + 10);
    mac[1] = in->code;
}

// The plain text is laid out where its result goes; then each block is folded and encrypted in one pass.
static void des_seal(const struct input *in, uint8_t *out)
{
    const size_t filled = 2 + ID + in->payload;
    const size_t padding = (DES_BLOCK - filled % DES_BLOCK) % DES_BLOCK;
    const size_t n = filled + padding;
    uint8_t *sealed = out + ANSWER;
    uint8_t mac[MAC];
    uint8_t state[DES_BLOCK] = {0};
    des_key k;

    put_number(sealed, in->number);
    memcpy(sealed + 2, in->id, ID);
    memcpy(sealed + 2 + ID, in->text, in->payload);
    memset(sealed + filled, (int)padding, padding);
    start_mac(in, n, mac);
    des_set(&k, in->key);
    for (size_t at = 0; at < n; at += DES_BLOCK) {
        des_one(sealed + at, mac, mac);
        cbc_step(&k, state, sealed + at, sealed + at);
    }
    cbc_step(&k, state, mac, sealed + n);
    put_sealed(out, n + MAC, padding);
}

// Opens what has a number above this one.
static void des_open_above(const struct input *in, int above, uint8_t *out)
{
    const size_t n = in->given_n - MAC;
    uint8_t plain[SEALED];
    uint8_t mac[MAC];

    mode_cbc_back(in->key, in->given, in->given_n, plain);
    start_mac(in, n, mac);
    for (size_t at = 0; at < n; at += DES_BLOCK)
        des_one(plain + at, mac, mac);
    if (!same(mac, plain + n, MAC)) {
        put_answer(out, WRONG_MAC, 0, 0);
        return;
    }
    if (!same(plain + 2, in->id, ID)) {
        put_answer(out, WRONG_ID, 0, 0);
        return;
    }
    if ((int)number_at(plain) <= above) {
        put_answer(out, NOT_ABOVE, 0, 0);
        return;
    }
    memcpy(out + ANSWER, plain + 2 + ID, n - 2 - ID);
    put_answer(out, 0, n - 2 - ID, number_at(plain));
}

static void des_open(const struct input *in, uint8_t *out)
{
    des_open_above(in, -1, out);
}

static void des_step(const struct input *in, uint8_t *out)
{
    des_open_above(in, in->number - 1, out);
}

#endif
