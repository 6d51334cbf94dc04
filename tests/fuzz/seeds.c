// Writes the inputs that the fuzzer starts from: each operation in both schemes, with frames that the library sealed, as recipes and as
// bytes; sessions around their ceilings and of the version before; and derivations and searches that reach each number.
//
//     seeds DIR
#include "recipe.h"
#include "shot.h"

#include "../c/check.h"

#include "../../include/felica_secure.h"

#include <stdio.h>
#include <stdlib.h>
#include <string.h>

static const char *folder;
static unsigned files;

void check(int holds, const char *what)
{
    if (!holds) {
        fprintf(stderr, "seeds: %s\n", what);
        exit(1);
    }
}

static void put(FILE *f, const void *at, size_t n)
{
    check(fwrite(at, 1, n, f) == n, "cannot write");
}

static FILE *open_next(const struct recipe *r)
{
    char path[500];
    FILE *f;

    snprintf(path, sizeof path, "%s/%04u", folder, files++);
    f = fopen(path, "wb");
    check(f != NULL, path);
    put(f, r, sizeof *r);
    return f;
}

static struct recipe recipe_of(enum operation op, unsigned scheme, enum source source, unsigned length)
{
    struct recipe r;

    memset(&r, 0, sizeof r);
    r.op = (uint8_t)op;
    r.scheme = (uint8_t)(scheme - 1);
    r.code = 0x16;
    r.number[0] = 5;
    r.wrong = 0xFF;
    r.source = (uint8_t)source;
    r.flip = 5;
    r.length[0] = (uint8_t)length;
    r.length[1] = (uint8_t)(length >> 8);
    r.own[0] = 4;
    r.ceiling[0] = r.ceiling[1] = 0xFF;
    r.room_n = 100;
    return r;
}

static void plain(struct recipe r)
{
    fclose(open_next(&r));
}

// The same call with its bytes written out, sealed data too.
static void spelled(struct recipe r)
{
    static const enum argument order[] = {IN_ID, IN_KEYS, IN_THIRD, IN_NODES, IN_DATA};
    static struct shot s;
    size_t i;
    FILE *f;

    decode((const uint8_t *)&r, sizeof r, &s);
    r.source = RAW;
    r.length[0] = (uint8_t)s.in[IN_DATA].n;
    r.length[1] = (uint8_t)(s.in[IN_DATA].n >> 8);
    f = open_next(&r);
    for (i = 0; i < sizeof order / sizeof order[0]; i++) {
        put(f, s.in[order[i]].at, s.in[order[i]].n);
    }
    fclose(f);
}

static void lengths(enum operation op, unsigned scheme)
{
    static const unsigned all[] = {0, 8, 13, 40, 232, 233, 240, 241, 243, 244, 254, 256, 513};
    size_t i;

    for (i = 0; i < sizeof all / sizeof all[0]; i++) {
        plain(recipe_of(op, scheme, SEALED, all[i]));
        plain(recipe_of(op, scheme, RAW, all[i]));
    }
}

// An operation with what can be wrong: data, room, the length of each input, the numbers of a session.
static void operation(enum operation op, unsigned scheme)
{
    struct recipe r;
    int i;

    lengths(op, scheme);
    for (i = 0; i < SOURCES; i++) {
        r = recipe_of(op, scheme, (enum source)i, 40);
        plain(r);
        if (has_trait(op, OPENS)) {
            spelled(r);
        }
    }
    for (i = 0; i < INPUTS; i++) {
        r = recipe_of(op, scheme, SEALED, 40);
        r.wrong = (uint8_t)i;
        r.wrong_n = 7;
        plain(r);
    }
    r = recipe_of(op, scheme, SEALED, 40);
    r.room = 0x50;
    plain(r);
    r.room = 0;
    r.own[0] = r.own[1] = 0xFF;
    plain(r);
    r.flip = 69;
    plain(r);
    r.scheme = 0xE7;
    plain(r);
}

// Numbers from four below their ceiling to three above it, and at the ends. A making goes on to a history, which its data spell.
static void ceilings(enum operation op, unsigned scheme)
{
    static const unsigned numbers[] = {4, 0xFF, 0xFFFF};
    struct recipe r = recipe_of(op, scheme, SEALED, 60);
    unsigned i, more;

    r.near = 1;
    for (i = 0; i < sizeof numbers / sizeof numbers[0]; i++) {
        for (more = 0; more < 8; more++) {
            unsigned number = makes_session(op) ? numbers[i] : numbers[i] + 1;

            r.number[0] = (uint8_t)number;
            r.number[1] = (uint8_t)(number >> 8);
            r.own[0] = (uint8_t)numbers[i];
            r.own[1] = (uint8_t)(numbers[i] >> 8);
            r.ceiling[0] = (uint8_t)more;
            plain(r);
        }
    }
}

// Bytes of version 1, of its size, of both.
static void old_versions(enum operation op, unsigned scheme)
{
    struct recipe r = recipe_of(op, scheme, SEALED, 40);

    r.room_n = 3;
    for (r.flip = 0; r.flip < 3; r.flip++) {
        plain(r);
    }
}

// The trimmed opening of 16 bytes: each last byte up to 8, with each number of bytes at the end that equal it, up to 8.
static void trimmings(void)
{
    struct recipe r = recipe_of(TRIMMED, FELICA_SCHEME_DES, SEALED, 16);
    uint8_t bytes[FELICA_ID_SIZE + FELICA_DES_KEY_SIZE + FELICA_CHALLENGE_3C_SIZE + 16];
    unsigned last, run;
    FILE *f;

    for (last = 0; last <= 8; last++) {
        for (run = 1; run <= 8; run++) {
            memset(bytes, 0x5A, sizeof bytes);
            memset(bytes + sizeof bytes - run, (int)last, run);
            f = open_next(&r);
            put(f, bytes, sizeof bytes);
            fclose(f);
        }
    }
}

// Entries by mask (decode.c: the bits are the known nodes, DES below AES), areas and services by two bits each of `flip`.
static void derivation(unsigned mark, unsigned mask, unsigned flip, unsigned source)
{
    static const uint8_t node_choices[] = {1, 2, 3, 3, 5, 3, 3};
    struct recipe r = recipe_of(DERIVE, 1, RAW, 130);
    uint8_t keys[200 * 16];
    unsigned i, entries = 0;
    FILE *f;

    r.scheme = (uint8_t)mark;
    r.source = (uint8_t)source;
    r.flip = (uint8_t)flip;
    r.own[0] = (uint8_t)mask;
    r.own[1] = (uint8_t)(mask >> 8);
    for (i = 0; i < 16; i++) {
        entries += mask >> i & 1;
    }
    entries += source % 4 == 2 ? 130 : 0;
    memset(keys, 0x5C, sizeof keys);
    f = open_next(&r);
    put(f, keys, entries * 16);
    put(f, node_choices, sizeof node_choices);
    fclose(f);
}

// Two areas and two services, of which the keys are all there, or some, or none.
static void derivations(void)
{
    static const unsigned masks[] = {0xFFFF, 0x00FF, 0xFF00, 0x0000, 0x00FE, 0xFD00, 0x02FD};
    static const unsigned flips[] = {0x0A, 0x02, 0x08, 0x00, 0x8A};
    unsigned mark;
    size_t i, j;

    for (mark = 0; mark < 3; mark++) {
        for (i = 0; i < sizeof masks / sizeof masks[0]; i++) {
            for (j = 0; j < sizeof flips / sizeof flips[0]; j++) {
                derivation(mark, masks[i], flips[j], 0);
            }
        }
        derivation(mark, 0, 0x0A, 2);
    }
    derivation(0xE5, 0xFFFF, 0x0A, 0);
}

// The same entry three times.
static void twice(void)
{
    static const uint8_t entries[3 * 19] = {0x00, 0x10, 1, [19] = 0x00, 0x10, 1, [38] = 0x00, 0x10, 1};
    struct recipe r = recipe_of(DERIVE, 1, RAW, 3 << 8);
    FILE *f;

    r.source = 1;
    f = open_next(&r);
    put(f, entries, sizeof entries);
    fclose(f);
}

// Searches of the known nodes in lists that have the AES keys of the first and the last of them and another key; and of lists that have too many
// entries.
static void searches(void)
{
    struct recipe r;
    unsigned scheme, bit, node;

    for (scheme = 1; scheme <= 2; scheme++) {
        for (bit = 0; bit < 16; bit++) {
            for (node = 0; node < 8; node++) {
                r = recipe_of(SEARCH, scheme, RAW, 0);
                r.own[bit / 8] = (uint8_t)(1u << bit % 8);
                r.own[1] |= 0x81;
                r.flip = (uint8_t)(node * 4 + 1);
                plain(r);
            }
        }
        r = recipe_of(SEARCH, scheme, RAW, 130);
        r.source = 2;
        plain(r);
    }
}

// A key-free service alone.
static void key_free(void)
{
    static const uint8_t choices[] = {1, 4};
    struct recipe r = recipe_of(DERIVE, 1, RAW, 0);
    FILE *f;

    r.scheme = 1;
    r.source = 1;
    r.flip = 0x05;
    f = open_next(&r);
    put(f, choices, sizeof choices);
    fclose(f);
}

int main(int argc, char **argv)
{
    unsigned op, scheme;

    check(argc == 2, "seeds DIR");
    folder = argv[1];
    for (op = 0; op < OPERATIONS; op++) {
        for (scheme = 1; op != DERIVE && scheme <= 2; scheme++) {
            operation((enum operation)op, scheme);
            if (family_of((enum operation)op) == family_session) {
                ceilings((enum operation)op, scheme);
            }
            if (takes((enum operation)op, IN_SESSION)) {
                old_versions((enum operation)op, scheme);
            }
        }
    }
    trimmings();
    derivations();
    twice();
    searches();
    key_free();
    printf("%u\n", files);
    return 0;
}
