#include "parts.h"

#include "call.h"
#include "check.h"
#include "layout.h"
#include "model_derivation.h"

#include "../../include/felica_secure.h"

#include <string.h>

// A call, and the making whose block it gives, reads or checks.
struct taking {
    enum operation operation;
    enum operation reads;
};

static const struct taking calls_of[] = {
    {MAKE_1A, MAKE_1A}, {READ_1A, MAKE_1A}, {MAKE_1B, MAKE_1B}, {CHECK_1B, MAKE_1B},
    {MAKE_2A, MAKE_2A}, {READ_2A, MAKE_2A}, {MAKE_2B, MAKE_2B}, {CHECK_2B, MAKE_2B},
};
#define CALLS (sizeof calls_of / sizeof calls_of[0])

static int has_3c(const struct taking *t)
{
    return takes(t->operation, IN_THIRD);
}

static int checks(const struct taking *t)
{
    return takes(t->operation, IN_CHECKED);
}

static int reads(const struct taking *t)
{
    return t->operation != t->reads && !checks(t);
}

// An accepted call: its block, and what it checks, at `made`. Answers the block that it writes, or NULL.
static const uint8_t *good(const struct taking *t, unsigned scheme, unsigned seed, struct call *c, uint8_t *made)
{
    struct text random = sample(seed + 40000, block_size(scheme));

    memset(c, 0, sizeof *c);
    c->operation = t->reads;
    c->scheme = (uint8_t)scheme;
    c->credentials = sample(seed + 41000, derived_size(scheme));
    c->id = sample(seed + 42000, 8);
    c->data = random;
    if (has_3c(t)) {
        c->challenge_3c = sample(seed + 43000, 4);
    }
    challenge_of(c, made);
    c->operation = t->operation;
    if (checks(t)) {
        c->checked = text_of(made, random.n);
        return NULL;
    }
    if (reads(t)) {
        c->data = text_of(made, random.n);
        return random.at;
    }
    return made;
}

static void accepted(const struct taking *t, const struct call *c, const uint8_t *wanted)
{
    gives(c, 0, checks(t) ? 0 : block_size(c->scheme), wanted, NULL);
}

// ---- lengths and marks

static void marks(const struct taking *t, unsigned scheme)
{
    struct call c;
    uint8_t made[16];
    unsigned mark;

    good(t, scheme, 1, &c, made);
    for (mark = 0; mark < 256; mark++) {
        c.scheme = (uint8_t)mark;
        if (mark != scheme) {
            refuses(&c, FELICA_BAD_MARK_OR_LENGTH);
        }
    }
}

// One input of a good call with every length but its own.
static void sizes_of(const struct call *c, struct text *input)
{
    // the last ones would be right if they were cut to 8 or 16 bits
    static const size_t odd[] = {256 + 4, 256 + 8, 256 + 16, 256 + 32, 65536 + 4, 65536 + 8, 65536 + 16, 65536 + 32};
    struct text own = *input;
    size_t i, n;

    for (i = 0; i < 40 + sizeof odd / sizeof odd[0]; i++) {
        n = i < 40 ? i : odd[i - 40];
        if (n != own.n) {
            *input = sample((unsigned)i, n);
            refuses(c, FELICA_BAD_MARK_OR_LENGTH);
        }
    }
    *input = own;
}

static void sizes(const struct taking *t, unsigned scheme)
{
    struct call c;
    uint8_t made[16];

    good(t, scheme, 2, &c, made);
    sizes_of(&c, &c.credentials);
    sizes_of(&c, &c.id);
    sizes_of(&c, &c.data);
    if (has_3c(t)) {
        sizes_of(&c, &c.challenge_3c);
    }
    if (checks(t)) {
        sizes_of(&c, &c.checked);
    }
}

// ---- orders: every set of what is wrong. 17, then 16; 17, then 13

enum { MARK = 1, KEYS = 2, IDM = 4, BLOCK = 8, THIRD = 16, CHECKED = 32, LATER = 64, SETS = 128 };

static void spoil(const struct taking *t, struct call *c, unsigned set)
{
    static const uint8_t others[] = {0, 3, 255};

    if (set & MARK) {
        c->scheme = others[set % 3];
    }
    if (set & KEYS) {
        c->credentials.n -= set % 5 + 1;
    }
    if (set & IDM) {
        c->id.n -= set % 4 + 1;
    }
    if (set & BLOCK) {
        c->data.n -= set % 5 + 1;
    }
    if (set & THIRD && has_3c(t)) {
        c->challenge_3c.n -= set % 4 + 1;
    }
    if (set & CHECKED && checks(t)) {
        c->checked.n -= set % 5 + 1;
    }
}

static void orders_of(const struct taking *t, unsigned scheme)
{
    unsigned looks_at = MARK | KEYS | IDM | BLOCK | (has_3c(t) ? THIRD : 0) | (checks(t) ? CHECKED : 0), set;
    size_t room = checks(t) ? 0 : block_size(scheme);

    for (set = 0; set < SETS; set++) {
        struct call c;
        uint8_t made[16];
        const uint8_t *wanted = good(t, scheme, set, &c, made);

        spoil(t, &c, set);
        if (set & LATER && checks(t)) {
            made[0] ^= 1;
        }
        if (set & looks_at) {
            refuses_in(&c, set & LATER && !checks(t) ? room - 1 : room, FELICA_BAD_MARK_OR_LENGTH);
        } else if (set & LATER) {
            refuses_in(&c, checks(t) ? 0 : room - 1, checks(t) ? FELICA_MAC_DIFFERS : FELICA_OUTPUT_TOO_SMALL);
        } else {
            accepted(t, &c, wanted);
        }
    }
}

// ---- bytes

static void bytes(const struct taking *t, unsigned scheme)
{
    static const uint8_t zeros[32];
    struct call c;
    uint8_t made[16], ones[32];
    const uint8_t *wanted;
    unsigned seed;

    for (seed = 0; seed < 60; seed++) {
        wanted = good(t, scheme, seed + 300, &c, made);
        accepted(t, &c, wanted);
    }
    // keys of zeros; an IDm that is the group key
    memset(ones, 0xFF, sizeof ones);
    for (seed = 0; seed < 4; seed++) {
        if (t->operation != t->reads) {
            continue;
        }
        good(t, scheme, seed + 400, &c, made);
        c.credentials.at = seed == 0 ? zeros : seed == 1 ? ones : c.credentials.at;
        c.id.at = seed == 0 ? zeros : seed == 1 ? ones : seed == 2 ? c.credentials.at : c.id.at;
        c.data.at = seed == 3 ? zeros : c.data.at;
        challenge_of(&c, made);
        accepted(t, &c, made);
    }
}

// ---- a 1B or 2B that differs, and one of other inputs

// Each bit of the challenge is looked at, and each whole byte.
static void damages_of(const struct taking *t, unsigned scheme)
{
    struct call c;
    uint8_t made[16];
    size_t at;
    unsigned change;

    good(t, scheme, 500, &c, made);
    for (at = 0; at < block_size(scheme); at++) {
        for (change = 1; change < 256; change++) {
            made[at] ^= (uint8_t)change;
            refuses_in(&c, change % 2, FELICA_MAC_DIFFERS);
            made[at] ^= (uint8_t)change;
        }
    }
    accepted(t, &c, NULL);
    memcpy(made, c.data.at, block_size(scheme));
    refuses(&c, FELICA_MAC_DIFFERS);
    memset(made, 0, sizeof made);
    refuses(&c, FELICA_MAC_DIFFERS);
}

// One bit of an input is another at the end that checks. Whether that gives another challenge the layout says: no bit of Challenge 3C
// does with DES, and no lowest bit of a byte that is only ever a DES key.
static unsigned others_of(const struct call *c, struct text *input)
{
    uint8_t changed[32], block[16];
    struct text own = *input;
    unsigned same = 0, bit;

    for (bit = 0; bit < own.n * 8; bit++) {
        memcpy(changed, own.at, own.n);
        changed[bit / 8] ^= (uint8_t)(1u << bit % 8);
        *input = text_of(changed, own.n);
        challenge_of(c, block);
        if (memcmp(block, c->checked.at, c->checked.n) == 0) {
            gives(c, 0, 0, NULL, NULL);
            same++;
        } else {
            refuses_in(c, 0, FELICA_MAC_DIFFERS);
        }
    }
    *input = own;
    return same;
}

static void others(const struct taking *t, unsigned scheme)
{
    int is_des = scheme == FELICA_SCHEME_DES;
    struct call c;
    uint8_t made[16];

    good(t, scheme, 600, &c, made);
    check(others_of(&c, &c.data) == 0, "another random block with the same challenge");
    // DES: 2B has L as a key alone; in 1B it is also what alpha encrypts
    check(others_of(&c, &c.id) == (is_des && t->operation == CHECK_2B ? 8 : 0), "another IDm with the same challenge");
    others_of(&c, &c.credentials);
    if (has_3c(t)) {
        check(others_of(&c, &c.challenge_3c) == (is_des ? 32 : 0), "Challenge 3C");
    }
}

// ---- AES session keys: 17, 16

static void session_keys(void)
{
    struct call c;
    uint8_t wanted[32];
    unsigned seed;

    memset(&c, 0, sizeof c);
    c.operation = SESSION_KEYS;
    c.data = sample(3, 16);
    sizes_of(&c, &c.data);
    for (seed = 0; seed < 60; seed++) {
        c.data = sample(seed, 16);
        session_keys_of(c.data.at, wanted);
        gives(&c, 0, 32, wanted, NULL);
    }
    c.data.n = 15;
    refuses_in(&c, 31, FELICA_BAD_MARK_OR_LENGTH);
}

void challenges(void)
{
    unsigned scheme;
    size_t i;

    part("challenges");
    for (scheme = 1; scheme <= 2; scheme++) {
        for (i = 0; i < CALLS; i++) {
            const struct taking *t = &calls_of[i];

            marks(t, scheme);
            sizes(t, scheme);
            orders_of(t, scheme);
            bytes(t, scheme);
            if (checks(t)) {
                damages_of(t, scheme);
                others(t, scheme);
            }
        }
    }
    part("AES session keys");
    session_keys();
}
