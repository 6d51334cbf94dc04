#include "parts.h"

#include "call.h"
#include "check.h"
#include "layout.h"
#include "model_derivation.h"

#include "../../include/felica_secure.h"

#include <string.h>

// What both ends of an authentication come to have in common.
struct ends {
    unsigned scheme;
    unsigned seed;
    struct text idm;
    struct text challenge_3c;
    struct text id;
    uint8_t reader_keys[32];
    uint8_t card_keys[32];
    uint8_t reader_credentials[36];
    uint8_t card_credentials[36];
};

// The same areas, services and keys at both ends; the card has its entries the other way round, and one that nobody needs.
static void derivations_of(struct ends *e, unsigned mark)
{
    static const unsigned nodes[] = {0x0000, 0x0040, 0x1008, 0x1009, 0x2048, FELICA_NODE_SYSTEM};
    static struct lists reader, card;
    unsigned n = sizeof nodes / sizeof nodes[0], i;
    struct call c;

    clear(&reader);
    clear(&card);
    add_key(&card, 0x7000, 3 - e->scheme, e->seed);
    for (i = 0; i < n; i++) {
        add_key(&reader, nodes[i], e->scheme, e->seed);
        add_key(&card, nodes[n - 1 - i], e->scheme, e->seed);
    }
    for (i = 0; i < 2; i++) {
        add_area(&reader, nodes[i]);
        add_area(&card, nodes[i]);
    }
    for (i = 2; i < 5; i++) {
        add_service(&reader, nodes[i]);
        add_service(&card, nodes[i]);
    }
    c = derivation(&reader, mark);
    c.individual = sample(e->seed, e->scheme == FELICA_SCHEME_AES128 && e->seed % 2 == 0 ? 16 : 0);
    derives(&c, e->scheme, derived_size(e->scheme), derivation_of(&c).bytes, e->reader_keys);
    c = derivation(&card, mark);
    c.individual = sample(e->seed, e->scheme == FELICA_SCHEME_AES128 && e->seed % 2 == 0 ? 16 : 0);
    derives(&c, e->scheme, derived_size(e->scheme), e->reader_keys, e->card_keys);
}

// A challenge call of one end.
static struct call at_end(const struct ends *e, enum operation operation, const uint8_t *keys, const uint8_t *block)
{
    struct call c;

    memset(&c, 0, sizeof c);
    c.operation = operation;
    c.scheme = (uint8_t)e->scheme;
    c.credentials = text_of(keys, derived_size(e->scheme));
    c.id = e->idm;
    c.data = text_of(block, block_size(e->scheme));
    if (takes(operation, IN_THIRD)) {
        c.challenge_3c = e->challenge_3c;
    }
    return c;
}

static void gives_block(const struct ends *e, enum operation operation, const uint8_t *keys, const uint8_t *block, uint8_t *to)
{
    struct call c = at_end(e, operation, keys, block);

    gives(&c, 0, block_size(e->scheme), NULL, to);
}

// One end makes, the other checks; with a byte changed it is turned down.
static void checks(const struct ends *e, enum operation operation, const uint8_t *keys, const uint8_t *random, uint8_t *challenge)
{
    struct call c = at_end(e, operation, keys, random);
    size_t at;

    c.checked = text_of(challenge, block_size(e->scheme));
    gives(&c, 0, 0, NULL, NULL);
    for (at = 0; at < c.checked.n; at++) {
        challenge[at] ^= (uint8_t)(at * 16 + 1);
        refuses(&c, FELICA_MAC_DIFFERS);
        challenge[at] ^= (uint8_t)(at * 16 + 1);
    }
}

static void challenges_of(struct ends *e)
{
    const uint8_t *random_1 = sample(e->seed + 50000, 16).at, *random_2 = sample(e->seed + 51000, 16).at;
    uint8_t block[16], read_1[16], read_2[16];
    size_t n = block_size(e->scheme);
    struct call c;

    // the reader makes 1A, the card reads it and makes 1B, the reader checks that
    gives_block(e, MAKE_1A, e->reader_keys, random_1, block);
    check(memcmp(block, random_1, n) != 0, "random 1 is passed through");
    gives_block(e, READ_1A, e->card_keys, block, read_1);
    check(memcmp(read_1, random_1, n) == 0, "the card reads another random 1");
    gives_block(e, MAKE_1B, e->card_keys, read_1, block);
    checks(e, CHECK_1B, e->reader_keys, random_1, block);

    // the card makes 2A, the reader reads it and makes 2B, the card checks that
    gives_block(e, MAKE_2A, e->card_keys, random_2, block);
    gives_block(e, READ_2A, e->reader_keys, block, read_2);
    check(memcmp(read_2, random_2, n) == 0, "the reader reads another random 2");
    gives_block(e, MAKE_2B, e->reader_keys, read_2, block);
    checks(e, CHECK_2B, e->card_keys, random_2, block);

    // AES session keys; the DES one is the caller's
    memcpy(e->reader_credentials, sample(e->seed + 52000, 8).at, 8);
    memcpy(e->card_credentials, e->reader_credentials, 8);
    if (e->scheme == FELICA_SCHEME_AES128) {
        memset(&c, 0, sizeof c);
        c.operation = SESSION_KEYS;
        c.data = text_of(read_2, 16);
        gives(&c, 0, 32, NULL, e->reader_credentials);
        c.data = text_of(random_2, 16);
        gives(&c, 0, 32, e->reader_credentials, e->card_credentials);
        memcpy(e->reader_credentials + 32, e->challenge_3c.at, 4);
        memcpy(e->card_credentials + 32, e->challenge_3c.at, 4);
    }
}

// A command from one end opens at the other; in a response frame likewise.
static void seals(const struct ends *e, const uint8_t *from, const uint8_t *to, int frames)
{
    int is_des = e->scheme == FELICA_SCHEME_DES;
    size_t credentials_n = is_des ? 8 : 36, added = is_des ? 16 : 10, front = frames ? 2 : 0;
    struct text payload = sample(e->seed + 53000, e->seed % 30 * 8);
    uint8_t sealed[255];
    struct call c;

    memset(&c, 0, sizeof c);
    c.operation = frames ? FRAME : SEAL;
    c.scheme = (uint8_t)e->scheme;
    c.code = (uint8_t)(e->seed * 11);
    c.number = (uint16_t)(e->seed * 771);
    c.id = e->id;
    c.credentials = text_of(from, credentials_n);
    c.data = payload;
    gives(&c, 0, payload.n + added + front, NULL, sealed);
    c.operation = OPEN;
    c.credentials = text_of(to, credentials_n);
    c.data = text_of(sealed + front, payload.n + added);
    gives(&c, c.number, payload.n, payload.at, NULL);
}

static void agree(unsigned scheme, unsigned mark, unsigned seed)
{
    struct ends e;

    memset(&e, 0, sizeof e);
    e.scheme = scheme;
    e.seed = seed;
    e.idm = sample(seed + 54000, 8);
    e.challenge_3c = sample(seed + 55000, 4);
    e.id = sample(seed + 56000, 6);
    derivations_of(&e, mark);
    challenges_of(&e);
    seals(&e, e.reader_credentials, e.card_credentials, 0);
    seals(&e, e.card_credentials, e.reader_credentials, 1);
}

void agreements(void)
{
    unsigned scheme, seed;

    part("both ends");
    for (scheme = 1; scheme <= 2; scheme++) {
        for (seed = 1; seed <= 12; seed++) {
            agree(scheme, FELICA_SCHEME_BY_KEYS, seed);
            agree(scheme, scheme, seed + 100);
        }
    }
}
