#include "model_derivation.h"

#include "blocks.h"
#include "check.h"
#include "layout.h"

#include "../../include/felica_secure.h"

#include <string.h>

// ---- lists

void clear(struct lists *l)
{
    memset(l, 0, sizeof *l);
}

void add_key(struct lists *l, unsigned node, unsigned algorithm, unsigned seed)
{
    uint8_t *entry = l->keys + l->keys_n;

    check(l->keys_n + 19 <= sizeof l->keys, "the test's own list is too small");
    entry[0] = (uint8_t)(node % 256);
    entry[1] = (uint8_t)(node / 256);
    entry[2] = (uint8_t)algorithm;
    memcpy(entry + 3, sample(node * 3 + algorithm + seed * 101, 16).at, 16);
    l->keys_n += 19;
}

static void add_node(uint8_t *list, size_t *n, unsigned node)
{
    check(*n + 2 <= NODES_ROOM * 2, "the test's own list is too small");
    list[(*n)++] = (uint8_t)(node % 256);
    list[(*n)++] = (uint8_t)(node / 256);
}

void add_area(struct lists *l, unsigned node)
{
    add_node(l->areas, &l->areas_n, node);
}

void add_service(struct lists *l, unsigned node)
{
    add_node(l->services, &l->services_n, node);
}

struct call search(const struct lists *l, unsigned node, unsigned algorithm)
{
    struct call c;

    memset(&c, 0, sizeof c);
    c.operation = SEARCH;
    c.scheme = (uint8_t)algorithm;
    c.number = (uint16_t)node;
    c.credentials = text_of(l->keys, l->keys_n);
    return c;
}

struct call derivation(const struct lists *l, unsigned mark)
{
    struct call c;

    memset(&c, 0, sizeof c);
    c.operation = DERIVE;
    c.scheme = (uint8_t)mark;
    c.credentials = text_of(l->keys, l->keys_n);
    c.areas = text_of(l->areas, l->areas_n);
    c.services = text_of(l->services, l->services_n);
    return c;
}

// ---- derivation

static unsigned node_at(struct text list, size_t at)
{
    return list.at[at] + 256u * list.at[at + 1];
}

// The key of a node and an algorithm, or NULL.
static const uint8_t *key_of(struct text keys, unsigned node, unsigned algorithm)
{
    size_t at;

    for (at = 0; at < keys.n; at += 19) {
        if (node_at(keys, at) == node && keys.at[at + 2] == algorithm) {
            return keys.at + at + 3;
        }
    }
    return NULL;
}

// Low six bits odd and in 9..23.
static int key_free(unsigned service)
{
    return service % 2 == 1 && service % 64 >= 9 && service % 64 <= 23;
}

static unsigned first_rows(const struct call *c)
{
    struct text keys = c->credentials;
    size_t at;
    int twice = 0;

    if (c->scheme > 2 || keys.n % 19 != 0 || c->areas.n % 2 != 0 || c->services.n % 2 != 0 ||
        (c->individual.n != 0 && c->individual.n != 16)) {
        return 17;
    }
    for (at = 0; at < keys.n; at += 19) {
        if (keys.at[at + 2] != 1 && keys.at[at + 2] != 2) {
            return 17;
        }
        // the first entry of a node and an algorithm is another than this one
        twice |= key_of(keys, node_at(keys, at), keys.at[at + 2]) != keys.at + at + 3;
    }
    if (keys.n / 19 > 128 || c->areas.n / 2 > 32 || c->services.n / 2 > 32) {
        return 1;
    }
    return twice ? 2 : 0;
}

// The target of mark 0; there is an area or a service.
static unsigned target_of(const struct call *c)
{
    size_t at;

    for (at = c->services.n; at > 0; at -= 2) {
        if (!key_free(node_at(c->services, at - 2))) {
            return node_at(c->services, at - 2);
        }
    }
    return c->services.n != 0 ? node_at(c->services, c->services.n - 2) : node_at(c->areas, c->areas.n - 2);
}

// The node's key encrypts the state, or its lack is the answer.
static uint64_t link_of(struct text keys, unsigned node, unsigned algorithm, uint8_t *state)
{
    const uint8_t *key = key_of(keys, node, algorithm);

    if (key == NULL) {
        return key_of(keys, node, 3 - algorithm) != NULL ? 5 : missing(node);
    }
    if (algorithm == FELICA_ALGORITHM_DES) {
        des(key, state, state);
    } else {
        aes(key, state, state);
    }
    return 0;
}

static uint64_t links_of(struct text keys, struct text nodes, unsigned algorithm, uint8_t *state)
{
    uint64_t answer = 0;
    size_t at;

    for (at = 0; answer == 0 && at < nodes.n; at += 2) {
        answer = link_of(keys, node_at(nodes, at), algorithm, state);
    }
    return answer;
}

static struct modelled des_chain(const struct call *c)
{
    struct modelled d = {0, {0}};
    uint8_t bearing[64];
    size_t n = 0, at;
    const uint8_t *system = key_of(c->credentials, 0xFFFF, FELICA_ALGORITHM_DES);

    for (at = 0; at < c->services.n; at += 2) {
        if (!key_free(node_at(c->services, at))) {
            memcpy(bearing + n, c->services.at + at, 2);
            n += 2;
        }
    }
    if (c->individual.n != 0) {
        d.answer = 6;
    } else if (c->areas.n == 0) {
        d.answer = 7;
    } else if (n == 0) {
        d.answer = 8;
    } else if (system == NULL) {
        d.answer = key_of(c->credentials, 0xFFFF, FELICA_ALGORITHM_AES128) != NULL ? 5 : missing(0xFFFF);
    } else {
        memcpy(d.bytes, system, 8);
        d.answer = links_of(c->credentials, c->areas, FELICA_ALGORITHM_DES, d.bytes);
        memcpy(d.bytes + 8, d.bytes, 8);
        if (d.answer == 0) {
            d.answer = links_of(c->credentials, text_of(bearing, n), FELICA_ALGORITHM_DES, d.bytes + 8);
        }
        if (d.answer == 0) {
            d.answer = (uint64_t)16 << 16 | FELICA_SCHEME_DES << 8;
        }
    }
    return d;
}

static struct modelled aes_chain(const struct call *c)
{
    struct modelled d = {0, {0}};

    d.bytes[0] = 0x01;
    d.bytes[1] = 0x01;
    d.bytes[15] = 0x80;
    d.answer = links_of(c->credentials, c->areas, FELICA_ALGORITHM_AES128, d.bytes);
    if (d.answer == 0) {
        d.answer = links_of(c->credentials, c->services, FELICA_ALGORITHM_AES128, d.bytes);
    }
    if (d.answer == 0 && c->areas.n + c->services.n == 0) {
        d.answer = 3;
    }
    if (c->individual.n != 0) {
        memcpy(d.bytes + 16, c->individual.at, 16);
    }
    if (d.answer == 0) {
        d.answer = (uint64_t)32 << 16 | FELICA_SCHEME_AES128 << 8;
    }
    return d;
}

struct modelled derivation_of(const struct call *c)
{
    struct modelled d = {0, {0}};
    unsigned target;

    d.answer = first_rows(c);
    if (d.answer != 0) {
        return d;
    }
    if (c->scheme != FELICA_SCHEME_BY_KEYS) {
        return c->scheme == FELICA_SCHEME_DES ? des_chain(c) : aes_chain(c);
    }
    if (c->areas.n + c->services.n == 0) {
        d.answer = 3;
        return d;
    }
    target = target_of(c);
    if (key_of(c->credentials, target, FELICA_ALGORITHM_AES128) != NULL) {
        return aes_chain(c);
    }
    if (key_of(c->credentials, target, FELICA_ALGORITHM_DES) != NULL) {
        return des_chain(c);
    }
    d.answer = missing(target);
    return d;
}

// ---- challenges

static int under_alpha(enum operation operation)
{
    return operation == MAKE_1A || operation == MAKE_2B || operation == CHECK_2B;
}

// L = group xor IDm; alpha = user under L; beta = L under alpha. 1A, 2B use (alpha, L); 1B, 2A use (L, beta).
static void des_challenge(const struct call *c, uint8_t *to)
{
    uint8_t l[8], alpha[8], beta[8];
    int i;

    for (i = 0; i < 8; i++) {
        l[i] = c->credentials.at[i] ^ c->id.at[i];
    }
    des(l, c->credentials.at + 8, alpha);
    des(alpha, l, beta);
    if (under_alpha(c->operation)) {
        tdes(alpha, l, c->data.at, to);
    } else {
        tdes(l, beta, c->data.at, to);
    }
}

// H = group xor individual; alpha and beta encrypt 01 02 or 02 02, four 00, IDm, 01 00 under H. 1A, 2B use alpha; 1B, 2A use beta with
// Challenge 3C xored into its first four bytes.
static void aes_challenge(const struct call *c, uint8_t *to)
{
    uint8_t h[16], key[16] = {0};
    int i;

    for (i = 0; i < 16; i++) {
        h[i] = c->credentials.at[i] ^ c->credentials.at[16 + i];
    }
    key[0] = under_alpha(c->operation) ? 0x01 : 0x02;
    key[1] = 0x02;
    memcpy(key + 6, c->id.at, 8);
    key[14] = 0x01;
    aes(h, key, key);
    for (i = 0; !under_alpha(c->operation) && i < 4; i++) {
        key[i] ^= c->challenge_3c.at[i];
    }
    aes(key, c->data.at, to);
}

void challenge_of(const struct call *c, uint8_t *to)
{
    if (c->scheme == FELICA_SCHEME_DES) {
        des_challenge(c, to);
    } else {
        aes_challenge(c, to);
    }
}

// 01 03 (cipher) and 02 03 (MAC), each then twelve 00, 01 00, under random 2.
void session_keys_of(const uint8_t *random_2, uint8_t *to)
{
    memset(to, 0, 32);
    to[0] = 0x01;
    to[16] = 0x02;
    to[1] = to[17] = 0x03;
    to[14] = to[30] = 0x01;
    aes(random_2, to, to);
    aes(random_2, to + 16, to + 16);
}

// ---- as a model of every call but the reading of a challenge: the test's own AES has no way back

static int sizes_fit(const struct call *c)
{
    size_t block = block_size(scheme_of(c->operation, c->scheme));

    if (c->operation == SESSION_KEYS) {
        return c->data.n == block;
    }
    return (c->scheme == FELICA_SCHEME_DES || c->scheme == FELICA_SCHEME_AES128) && c->credentials.n == derived_size(c->scheme) &&
           c->id.n == 8 && c->data.n == block && (!takes(c->operation, IN_THIRD) || c->challenge_3c.n == 4) &&
           (!takes(c->operation, IN_CHECKED) || c->checked.n == block);
}

static void model_challenge(const struct call *c, struct modelled *m)
{
    if (!sizes_fit(c)) {
        m->answer = FELICA_BAD_MARK_OR_LENGTH;
    } else if (c->operation == SESSION_KEYS) {
        m->answer = 32 << 16;
        session_keys_of(c->data.at, m->bytes);
    } else {
        m->answer = (uint64_t)c->data.n << 16;
        challenge_of(c, m->bytes);
    }
    if (m->answer != FELICA_BAD_MARK_OR_LENGTH && takes(c->operation, IN_CHECKED)) {
        m->answer = memcmp(m->bytes, c->checked.at, c->checked.n) == 0 ? 0 : FELICA_MAC_DIFFERS;
    }
}

int model_derivation(const struct call *c, struct modelled *m)
{
    if (c->operation == READ_1A || c->operation == READ_2A) {
        return 0;
    }
    if (c->operation == DERIVE) {
        *m = derivation_of(c);
    } else if (c->operation == SEARCH) {
        m->answer = search_answer(c->credentials, c->number, c->scheme);
    } else {
        model_challenge(c, m);
    }
    return 1;
}
