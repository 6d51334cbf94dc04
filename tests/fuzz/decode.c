#include "recipe.h"
#include "shot.h"

#include "../c/layout.h"

#include "../../include/felica_secure.h"

#include <string.h>

#define DES FELICA_SCHEME_DES
#define AES FELICA_SCHEME_AES128

// The fuzzer's bytes, and made-up ones where they end.
struct feed {
    const uint8_t *at;
    size_t left;
    uint64_t state;
};

static uint8_t next(struct feed *f)
{
    if (f->left != 0) {
        f->left--;
        return *f->at++;
    }
    f->state = f->state * 6364136223846793005u + 1442695040888963407u;
    return (uint8_t)(f->state >> 56);
}

static void fill(struct feed *f, struct buffer *t, size_t n)
{
    size_t i;

    t->n = n < INPUT_MAX ? n : INPUT_MAX;
    for (i = 0; i < t->n; i++) {
        t->at[i] = next(f);
    }
}

static uint16_t word(const uint8_t *two)
{
    return (uint16_t)(two[0] | two[1] << 8);
}

// Mostly a mark that there is.
static uint8_t mark(uint8_t b)
{
    if (b < 0x80) {
        return (uint8_t)(1 + (b & 1));
    }
    return b < 0xE0 ? b & 3 : b;
}

static size_t keys_size(enum operation op, unsigned scheme)
{
    return family_of(op) == family_derivation ? derived_size(scheme) : credentials_size(scheme_of(op, scheme));
}

// ---- lists of a derivation or a search

static const uint16_t nodes_known[8] = {0xFFFF, 0x0000, 0x1000, 0x1008, 0x1009, 0x1048, 0x1017, 0x2000};

static void put_word(struct buffer *t, unsigned value)
{
    t->at[t->n++] = (uint8_t)value;
    t->at[t->n++] = (uint8_t)(value >> 8);
}

static void add_entry(struct feed *f, struct buffer *t, unsigned node, unsigned algorithm)
{
    int i;

    put_word(t, node);
    t->at[t->n++] = (uint8_t)algorithm;
    for (i = 0; i < 16; i++) {
        t->at[t->n++] = next(f);
    }
}

static void add_nodes(struct feed *f, struct buffer *t, unsigned count)
{
    t->n = 0;
    while (count-- != 0) {
        put_word(t, nodes_known[next(f) & 7]);
    }
}

// Entries of the known nodes by a mask, any entries, or as many as the length says of nodes of their own.
static void lists(struct feed *f, const struct recipe *r, struct shot *s)
{
    unsigned i, mask = word(r->own), many = r->length[0] % 140;

    if (s->op == DERIVE) {
        s->scheme = r->scheme < 0xE0 ? r->scheme % 3 : r->scheme;
    } else if (r->flip % 4 != 0) {
        s->number = r->source % 4 == 2 ? 0x4000 + r->flip : nodes_known[r->flip / 4 % 8];
    }
    s->in[IN_KEYS].n = 0;
    for (i = 0; r->source % 4 != 1 && i < 16; i++) {
        if ((mask >> i & 1) != 0) {
            add_entry(f, &s->in[IN_KEYS], nodes_known[i % 8], 1 + i / 8);
        }
    }
    for (i = 0; r->source % 4 == 2 && i < many; i++) {
        add_entry(f, &s->in[IN_KEYS], 0x4000 + i, 1 + i % 2);
    }
    if (r->source % 4 == 1) {
        fill(f, &s->in[IN_KEYS], (r->length[1] % 8) * 19u);
    }
    add_nodes(f, &s->in[IN_AREAS], r->flip % 4 + (r->room_n % 16 == 0) * 32u);
    add_nodes(f, &s->in[IN_SERVICES], r->flip / 4 % 4 + (r->room_n % 16 == 1) * 32u);
    fill(f, &s->in[IN_INDIVIDUAL], r->flip >= 0x80 ? 16 : 0);
}

// ---- data, sealed by the library where the recipe says so

static void seal(struct shot *s, unsigned code, uint8_t *id)
{
    struct buffer plain = s->in[IN_DATA];
    unsigned scheme = scheme_of(s->op, s->scheme);
    uint64_t answer;

    if (s->op == AUTH2_OPEN_DES) {
        answer = felica_encrypt_authentication2_payload_des(s->in[IN_KEYS].at, 8, plain.at, plain.n, s->in[IN_DATA].at, INPUT_MAX);
    } else {
        code = s->op == AUTH2_OPEN_AES ? 0x43 : code;
        answer = felica_encrypt_command((uint8_t)scheme, (uint8_t)code, s->number, id, 6, s->in[IN_KEYS].at, keys_size(s->op, scheme),
                                        plain.at, plain.n, s->in[IN_DATA].at, INPUT_MAX);
    }
    if (felica_answer_number(answer) == 0) {
        s->in[IN_DATA].n = felica_answer_length(answer);
    }
}

static void sealed(const struct recipe *r, struct shot *s)
{
    unsigned source = r->source % SOURCES, code = s->code;
    uint8_t id[6];

    if (source == RAW) {
        return;
    }
    memcpy(id, s->in[IN_ID].at, sizeof id);
    id[r->flip % 6] ^= source == OTHER_ID;
    code ^= source == OTHER_CODE;
    seal(s, code, id);
    if (source == FLIPPED && s->in[IN_DATA].n != 0) {
        s->in[IN_DATA].at[r->flip % s->in[IN_DATA].n] ^= (uint8_t)(1u << r->flip % 8);
    }
    if (source == LONGER) {
        s->in[IN_DATA].n += 1 + r->flip % 16;
    }
}

// The challenge that is checked: right, or with a bit changed, or any.
static void checked(struct feed *f, const struct recipe *r, struct shot *s)
{
    struct buffer *keys = &s->in[IN_KEYS], *id = &s->in[IN_ID], *data = &s->in[IN_DATA], *third = &s->in[IN_THIRD];
    struct buffer *to = &s->in[IN_CHECKED];

    fill(f, to, block_size(s->scheme));
    if (r->source % SOURCES == RAW) {
        return;
    }
    if (s->op == CHECK_1B) {
        felica_encrypt_challenge1b(s->scheme, keys->at, keys->n, id->at, id->n, third->at, third->n, data->at, data->n, to->at, to->n);
    } else {
        felica_encrypt_challenge2b(s->scheme, keys->at, keys->n, id->at, id->n, data->at, data->n, to->at, to->n);
    }
    if (r->source % SOURCES == FLIPPED) {
        to->at[r->flip % to->n] ^= (uint8_t)(1u << r->flip % 8);
    }
}

// ---- sessions: made by the library, or with a byte changed, or of an older version, or any bytes

int makes_session(enum operation op)
{
    return op == MAKE_SESSION || op == MAKE_UNDER;
}

// Any, or from three below the number to four above.
static uint16_t ceiling_of(const struct recipe *r, unsigned number)
{
    return (uint16_t)(r->near % 2 != 0 ? number + r->ceiling[0] % 8 - 3 : word(r->ceiling));
}

static void session(struct feed *f, const struct recipe *r, struct shot *s)
{
    struct buffer *id = &s->in[IN_ID], *keys = &s->in[IN_KEYS], *nodes = &s->in[IN_NODES], *to = &s->in[IN_SESSION];
    uint8_t scheme = s->scheme == DES ? DES : AES;
    uint16_t number = word(r->own);

    to->n = FELICA_SESSION_SIZE;
    // where none is made
    memset(to->at, 0, to->n);
    felica_session_new_with_ceiling(scheme, number, ceiling_of(r, number), id->at, id->n, keys->at, credentials_size(scheme), nodes->at,
                                    nodes->n, to->at, to->n);
    if (r->room_n % 8 == 1) {
        to->at[r->flip % to->n] ^= next(f);
    }
    if (r->room_n % 32 == 2) {
        fill(f, to, FELICA_SESSION_SIZE);
        to->at[0] = FELICA_SESSION_VERSION;
        to->at[1] = (uint8_t)(1 + to->at[1] % 2);
    }
    // version 1, or its size, or both
    if (r->room_n % 32 == 3) {
        to->at[0] = r->flip % 4 == 2 ? FELICA_SESSION_VERSION : FELICA_SESSION_VERSION - 1;
        to->n = r->flip % 4 == 1 ? FELICA_SESSION_SIZE : 178;
    }
}

// ---- all together

// Empty, as large as the answer can be and more, or of any size.
static size_t room(const struct recipe *r, enum operation op)
{
    if (makes_session(op) && r->room < 0xC0) {
        return FELICA_SESSION_SIZE;
    }
    if (r->room < 0x40) {
        return 300 + (op == PACKAGE) * 4000u;
    }
    return r->room < 0x60 ? 0 : r->room < 0xF0 ? r->room_n : 5000;
}

static size_t data_size(const struct recipe *r, enum operation op, unsigned scheme)
{
    unsigned n = word(r->length);

    if (family_of(op) == family_derivation) {
        return block_size(scheme_of(op, scheme));
    }
    if (op == PACKAGE) {
        return n % 16 == 15 ? n % INPUT_MAX : n % 520 * 8;
    }
    return n < 0xFF00 ? n % 270 : n % INPUT_MAX;
}

static void inputs(struct feed *f, const struct recipe *r, struct shot *s)
{
    fill(f, &s->in[IN_ID], family_of(s->op) == family_derivation ? FELICA_IDM_SIZE : FELICA_ID_SIZE);
    fill(f, &s->in[IN_KEYS], keys_size(s->op, s->scheme));
    fill(f, &s->in[IN_THIRD], FELICA_CHALLENGE_3C_SIZE);
    if (family_of(s->op) == family_session) {
        fill(f, &s->in[IN_NODES], r->flip % 70 * 2u);
        // a node that is in the list, sometimes
        if (s->op == INDEX && r->source % 2 == 0 && s->in[IN_NODES].n != 0) {
            s->number = word(s->in[IN_NODES].at + r->code * 2u % s->in[IN_NODES].n);
        }
    }
    fill(f, &s->in[IN_DATA], data_size(r, s->op, s->scheme));
    if (has_trait(s->op, OPENS)) {
        sealed(r, s);
    }
    if (takes(s->op, IN_CHECKED)) {
        checked(f, r, s);
    }
    if (takes(s->op, IN_SESSION)) {
        session(f, r, s);
    }
}

void decode(const uint8_t *bytes, size_t n, struct shot *s)
{
    struct feed f = {bytes, n, 1};
    struct recipe r;
    uint8_t front[sizeof r];
    size_t i;

    for (i = 0; i < sizeof r; i++) {
        front[i] = next(&f);
    }
    memcpy(&r, front, sizeof r);
    for (i = 0; i < INPUTS; i++) {
        s->in[i].n = 0;
    }
    s->op = (enum operation)(r.op % OPERATIONS);
    s->scheme = mark(r.scheme);
    s->code = r.code;
    s->number = word(r.number);
    s->ceiling = ceiling_of(&r, s->number);
    s->place = r.place % 4;
    s->room = room(&r, s->op);
    if (s->op == DERIVE || s->op == SEARCH) {
        lists(&f, &r, s);
    } else {
        inputs(&f, &r, s);
    }
    if (r.wrong < INPUTS && s->in[r.wrong].n != 0) {
        s->in[r.wrong].n = r.wrong_n;
    }
}
