#include "blocks.h"

#include "check.h"
#include "parts.h"
#include "sample.h"

#include "../../include/felica_secure.h"

#include <string.h>

// ---- AES-128 (FIPS 197)

static uint8_t twice(uint8_t a)
{
    return (uint8_t)(a << 1 ^ (a & 0x80 ? 0x1B : 0));
}

static uint8_t times(uint8_t a, uint8_t b)
{
    uint8_t sum = 0;

    for (; b != 0; b >>= 1, a = twice(a)) {
        sum ^= b & 1 ? a : 0;
    }
    return sum;
}

// The inverse, which is the power of 254, then the affine map.
static uint8_t substitute(uint8_t a)
{
    static uint8_t box[256];
    static int filled;
    unsigned i, k;

    for (i = 0; !filled && i < 256; i++) {
        uint8_t inverse = 1;

        for (k = 0; k < 254; k++) {
            inverse = times(inverse, (uint8_t)i);
        }
        box[i] = (uint8_t)(inverse ^ (inverse << 1 | inverse >> 7) ^ (inverse << 2 | inverse >> 6) ^ (inverse << 3 | inverse >> 5) ^
                           (inverse << 4 | inverse >> 4) ^ 0x63);
    }
    filled = 1;
    return box[a];
}

// The next round key, over the last one.
static void expand(uint8_t *key, uint8_t constant)
{
    uint8_t first = key[12];
    int i;

    for (i = 0; i < 4; i++) {
        key[i] ^= substitute(i < 3 ? key[13 + i] : first);
    }
    key[0] ^= constant;
    for (i = 4; i < 16; i++) {
        key[i] ^= key[i - 4];
    }
}

void aes(const uint8_t *key, const uint8_t *block, uint8_t *to)
{
    uint8_t round_key[16], state[16], moved[16], constant = 1;
    int round, i;

    memcpy(round_key, key, 16);
    for (i = 0; i < 16; i++) {
        state[i] = block[i] ^ key[i];
    }
    for (round = 1; round <= 10; round++) {
        for (i = 0; i < 16; i++) {
            moved[i] = substitute(state[(i + i % 4 * 4) % 16]);
        }
        expand(round_key, constant);
        constant = twice(constant);
        for (i = 0; i < 16; i++) {
            const uint8_t *column = moved + i / 4 * 4;
            int row = i % 4;

            state[i] = round == 10 ? moved[i]
                                   : (uint8_t)(twice(column[row]) ^ times(3, column[(row + 1) % 4]) ^ column[(row + 2) % 4] ^
                                               column[(row + 3) % 4]);
            state[i] ^= round_key[i];
        }
    }
    memcpy(to, state, 16);
}

// ---- DES (FIPS 46-3). A bit is a byte here; the first is the standard's bit 1.

static const uint8_t initial[64] = {
    58, 50, 42, 34, 26, 18, 10, 2, 60, 52, 44, 36, 28, 20, 12, 4, 62, 54, 46, 38, 30, 22, 14, 6, 64, 56, 48, 40, 32, 24, 16, 8,
    57, 49, 41, 33, 25, 17, 9,  1, 59, 51, 43, 35, 27, 19, 11, 3, 61, 53, 45, 37, 29, 21, 13, 5, 63, 55, 47, 39, 31, 23, 15, 7,
};
static const uint8_t expansion[48] = {
    32, 1,  2,  3,  4,  5,  4,  5,  6,  7,  8,  9,  8,  9,  10, 11, 12, 13, 12, 13, 14, 15, 16, 17,
    16, 17, 18, 19, 20, 21, 20, 21, 22, 23, 24, 25, 24, 25, 26, 27, 28, 29, 28, 29, 30, 31, 32, 1,
};
static const uint8_t permutation[32] = {
    16, 7, 20, 21, 29, 12, 28, 17, 1, 15, 23, 26, 5, 18, 31, 10, 2, 8, 24, 14, 32, 27, 3, 9, 19, 13, 30, 6, 22, 11, 4, 25,
};
static const uint8_t choice1[56] = {
    57, 49, 41, 33, 25, 17, 9,  1, 58, 50, 42, 34, 26, 18, 10, 2, 59, 51, 43, 35, 27, 19, 11, 3, 60, 52, 44, 36,
    63, 55, 47, 39, 31, 23, 15, 7, 62, 54, 46, 38, 30, 22, 14, 6, 61, 53, 45, 37, 29, 21, 13, 5, 28, 20, 12, 4,
};
static const uint8_t choice2[48] = {
    14, 17, 11, 24, 1,  5,  3,  28, 15, 6,  21, 10, 23, 19, 12, 4,  26, 8,  16, 7,  27, 20, 13, 2,
    41, 52, 31, 37, 47, 55, 30, 40, 51, 45, 33, 48, 44, 49, 39, 56, 34, 53, 46, 42, 50, 36, 29, 32,
};
static const uint8_t boxes[8][64] = {
    {14, 4,  13, 1, 2,  15, 11, 8,  3,  10, 6,  12, 5,  9,  0, 7, 0,  15, 7, 4, 14, 2,  13, 1,  10, 6, 12, 11, 9,  5,  3, 8,
     4,  1,  14, 8, 13, 6,  2,  11, 15, 12, 9,  7,  3,  10, 5, 0, 15, 12, 8, 2, 4,  9,  1,  7,  5,  11, 3, 14, 10, 0,  6, 13},
    {15, 1,  8,  14, 6,  11, 3,  4, 9, 7, 2,  13, 12, 0, 5,  10, 3,  13, 4,  7, 15, 2,  8,  14, 12, 0, 1, 10, 6,  9,  11, 5,
     0,  14, 7,  11, 10, 4,  13, 1, 5, 8, 12, 6,  9,  3, 2,  15, 13, 8,  10, 1, 3,  15, 4,  2,  11, 6, 7, 12, 0,  5,  14, 9},
    {10, 0, 9, 14, 6, 3,  15, 5, 1,  13, 12, 7, 11, 4,  2,  8, 13, 7,  0,  9, 3, 4, 6, 10, 2, 8,  5,  14, 12, 11, 15, 1,
     13, 6, 4, 9,  8, 15, 3,  0, 11, 1,  2,  12, 5, 10, 14, 7, 1,  10, 13, 0, 6, 9, 8, 7,  4, 15, 14, 3,  11, 5,  2,  12},
    {7,  13, 14, 3, 0,  6,  9, 10, 1,  2, 8, 5,  11, 12, 4,  15, 13, 8,  11, 5, 6,  15, 0,  3, 4, 7, 2,  12, 1,  10, 14, 9,
     10, 6,  9,  0, 12, 11, 7, 13, 15, 1, 3, 14, 5,  2,  8,  4,  3,  15, 0,  6, 10, 1,  13, 8, 9, 4, 5,  11, 12, 7,  2,  14},
    {2, 12, 4, 1,  7,  10, 11, 6, 8,  5, 3,  15, 13, 0, 14, 9,  14, 11, 2,  12, 4, 7,  13, 1,  5, 0,  15, 10, 3, 9, 8, 6,
     4, 2,  1, 11, 10, 13, 7,  8, 15, 9, 12, 5,  6,  3, 0,  14, 11, 8,  12, 7,  1, 14, 2,  13, 6, 15, 0,  9,  10, 4, 5, 3},
    {12, 1,  10, 15, 9, 2, 6,  8, 0, 13, 3, 4, 14, 7,  5,  11, 10, 15, 4, 2,  7, 12, 9,  5,  6,  1,  13, 14, 0, 11, 3, 8,
     9,  14, 15, 5,  2, 8, 12, 3, 7, 0,  4, 10, 1, 13, 11, 6,  4,  3,  2, 12, 9, 5,  15, 10, 11, 14, 1,  7,  6, 0,  8, 13},
    {4, 11, 2,  14, 15, 0, 8, 13, 3,  12, 9, 7,  5,  10, 6, 1, 13, 0,  11, 7, 4, 9, 1,  10, 14, 3, 5, 12, 2,  15, 8, 6,
     1, 4,  11, 13, 12, 3, 7, 14, 10, 15, 6, 8,  0,  5,  9, 2, 6,  11, 13, 8, 1, 4, 10, 7,  9,  5, 0, 15, 14, 2,  3, 12},
    {13, 2,  8, 4, 6, 15, 11, 1, 10, 9,  3, 14, 5, 0,  12, 7, 1, 15, 13, 8, 10, 3, 7, 4,  12, 5,  6, 11, 0, 14, 9, 2,
     7,  11, 4, 1, 9, 12, 14, 2, 0,  6, 10, 13, 15, 3, 5,  8, 2, 1,  14, 7, 4, 10, 8, 13, 15, 12, 9, 0,  3, 5,  6, 11},
};

static void bits_of(const uint8_t *bytes, uint8_t *bits)
{
    int i;

    for (i = 0; i < 64; i++) {
        bits[i] = bytes[i / 8] >> (7 - i % 8) & 1;
    }
}

static void pick(const uint8_t *from, const uint8_t *table, int n, uint8_t *to)
{
    int i;

    for (i = 0; i < n; i++) {
        to[i] = from[table[i] - 1];
    }
}

// Both halves of the key's 56 bits, one place to the left.
static void rotate(uint8_t *cd)
{
    uint8_t c = cd[0], d = cd[28];

    memmove(cd, cd + 1, 55);
    cd[27] = c;
    cd[55] = d;
}

static void schedule(const uint8_t *key, uint8_t keys[16][48])
{
    static const uint8_t shifts[16] = {1, 1, 2, 2, 2, 2, 2, 2, 1, 2, 2, 2, 2, 2, 2, 1};
    uint8_t bits[64], cd[56];
    int round, i;

    bits_of(key, bits);
    pick(bits, choice1, 56, cd);
    for (round = 0; round < 16; round++) {
        for (i = 0; i < shifts[round]; i++) {
            rotate(cd);
        }
        pick(cd, choice2, 48, keys[round]);
    }
}

// Adds f(right, key) to left.
static void add_round(uint8_t *left, const uint8_t *right, const uint8_t *key)
{
    uint8_t wide[48], narrow[32], f[32];
    int i, k;

    pick(right, expansion, 48, wide);
    for (i = 0; i < 48; i++) {
        wide[i] ^= key[i];
    }
    for (i = 0; i < 8; i++) {
        const uint8_t *b = wide + 6 * i;
        uint8_t s = boxes[i][(b[0] * 2 + b[5]) * 16 + b[1] * 8 + b[2] * 4 + b[3] * 2 + b[4]];

        for (k = 0; k < 4; k++) {
            narrow[4 * i + k] = s >> (3 - k) & 1;
        }
    }
    pick(narrow, permutation, 32, f);
    for (i = 0; i < 32; i++) {
        left[i] ^= f[i];
    }
}

static void run(const uint8_t *key, const uint8_t *block, uint8_t *to, int back)
{
    uint8_t keys[16][48], bits[64], halves[64], right[32];
    int round, i;

    schedule(key, keys);
    bits_of(block, bits);
    pick(bits, initial, 64, halves);
    for (round = 0; round < 16; round++) {
        memcpy(right, halves + 32, 32);
        add_round(halves, right, keys[back ? 15 - round : round]);
        memcpy(halves + 32, halves, 32);
        memcpy(halves, right, 32);
    }
    memcpy(right, halves, 32);
    memmove(halves, halves + 32, 32);
    memcpy(halves + 32, right, 32);
    memset(to, 0, 8);
    for (i = 0; i < 64; i++) {
        int at = initial[i] - 1;

        to[at / 8] |= (uint8_t)(halves[i] << (7 - at % 8));
    }
}

void des(const uint8_t *key, const uint8_t *block, uint8_t *to)
{
    run(key, block, to, 0);
}

void des_back(const uint8_t *key, const uint8_t *block, uint8_t *to)
{
    run(key, block, to, 1);
}

void tdes(const uint8_t *key1, const uint8_t *key2, const uint8_t *block, uint8_t *to)
{
    des(key1, block, to);
    des_back(key2, to, to);
    des(key1, to, to);
}

// ---- against what is known

void blocks(void)
{
    // FIPS 197, C.1
    static const uint8_t key[16] = {0, 1, 2, 3, 4, 5, 6, 7, 8, 9, 10, 11, 12, 13, 14, 15};
    static const uint8_t wanted[16] = {0x69, 0xC4, 0xE0, 0xD8, 0x6A, 0x7B, 0x04, 0x30, 0xD8, 0xCD, 0xB7, 0x80, 0x70, 0xB4, 0xC5, 0x5A};
    // FIPS 81, table B1
    static const uint8_t des_key[8] = {0x01, 0x23, 0x45, 0x67, 0x89, 0xAB, 0xCD, 0xEF};
    static const uint8_t des_wanted[8] = {0x3F, 0xA4, 0x0E, 0x8A, 0x98, 0x4D, 0x48, 0x15};
    uint8_t block[16], package[16];
    unsigned i;

    part("the test's own ciphers");
    for (i = 0; i < 16; i++) {
        block[i] = (uint8_t)(i * 0x11);
    }
    aes(key, block, block);
    check(memcmp(block, wanted, 16) == 0, "AES");
    des(des_key, (const uint8_t *)"Now is t", block);
    check(memcmp(block, des_wanted, 8) == 0, "DES");
    des_back(des_key, block, block);
    check(memcmp(block, "Now is t", 8) == 0, "DES, back");

    // a package starts with its first block under the key
    for (i = 0; i < 200; i++) {
        const uint8_t *k = sample(i + 100, 8).at, *plain = sample(i + 300, 8).at;

        check(felica_generate_registration_package_des(k, 8, plain, 8, package, 16) == (uint64_t)16 << 16, "package");
        des(k, plain, block);
        check(memcmp(block, package, 8) == 0, "DES is not that of packages");
        des_back(k, block, block);
        check(memcmp(block, plain, 8) == 0, "DES, back");
    }
}
