// What is the same for every peer in both schemes: answers, comparisons, and the search of a derivation.
// peer_aes.h and peer_des.h have the rows, over the block functions that each file has of its library before it includes them.
// The layouts are those of crates/frame/specs and crates/session/specs; marks, lengths and counts are not tested.
#ifndef HERNOTXAK_BENCH_PEER_H
#define HERNOTXAK_BENCH_PEER_H

#include "bench.h"

#include <string.h>

enum { MAC = 8 };

// A block under a key that is new: key schedule and cipher. The text may be where its result goes.
typedef void block_function(const uint8_t *key, const uint8_t *text, uint8_t *out);

// The work on an AES frame: a payload of n bytes goes from one place to the other, with the key stream added; its MAC is made on the way.
struct aes_frame {
    // The MAC's first block before, the MAC after.
    uint8_t mac[AES_BLOCK];
    // The IV before, the block of the key stream behind the payload after.
    uint8_t stream[AES_BLOCK];
    const uint8_t *from;
    uint8_t *to;
    size_t n;
    // Whether the plain payload is what comes out.
    int opens;
};

static void put_answer(uint8_t *out, unsigned refusal, size_t length, unsigned number)
{
    const uint64_t answer = refusal | (uint64_t)length << 16 | (uint64_t)number << 32;

    memcpy(out, &answer, ANSWER);
}

// A sealing also has its padding.
static void put_sealed(uint8_t *out, size_t length, size_t padding)
{
    const uint64_t answer = (uint64_t)length << 16 | (uint64_t)padding << 48;

    memcpy(out, &answer, ANSWER);
}

// A transaction number or a node stands low byte first.
static void put_number(uint8_t *to, unsigned number)
{
    to[0] = (uint8_t)number;
    to[1] = (uint8_t)(number >> 8);
}

static unsigned number_at(const uint8_t *from)
{
    return from[0] | (unsigned)from[1] << 8;
}

// Whether two byte strings are equal. It takes as long wherever they differ.
static int same(const uint8_t *a, const uint8_t *b, size_t n)
{
    uint8_t difference = 0;

    for (size_t i = 0; i < n; i++)
        difference |= a[i] ^ b[i];
    return difference == 0;
}

// ---- the search of a derivation

// The first key of a node and an algorithm in n entries, or NULL.
static const uint8_t *key_of(const uint8_t *keys, int n, unsigned node, unsigned algorithm)
{
    for (int i = 0; i < n; i++, keys += ENTRY)
        if (number_at(keys) == node && keys[2] == algorithm)
            return keys + 3;
    return NULL;
}

// Whether a node and an algorithm stand twice.
static int key_twice(const uint8_t *keys)
{
    for (int n = ENTRIES; n > 0; n--, keys += ENTRY)
        if (key_of(keys + ENTRY, n - 1, number_at(keys), keys[2]) != NULL)
            return 1;
    return 0;
}

// The key of a needed node; without one, NULL and the answer to that at out.
static const uint8_t *needed(const struct lists *lists, unsigned node, unsigned algorithm, uint8_t *out)
{
    const uint8_t *key = key_of(lists->keys, ENTRIES, node, algorithm);

    if (key != NULL)
        return key;
    if (key_of(lists->keys, ENTRIES, node, DES_MARK + AES_MARK - algorithm) != NULL)
        put_answer(out, OTHER_KEY, 0, 0);
    else
        put_answer(out, NO_KEY, 0, node);
    return NULL;
}

// Low six bits odd and in 9..23.
static int key_free(unsigned service)
{
    return service % 2 == 1 && service % 64 >= 9 && service % 64 <= 23;
}

// The keys of a list's nodes, to which `found` points; those of key-free ones are left out with DES. Answers how many; -1 and the
// answer at out where one is missing.
static int needed_keys(const struct lists *lists, const uint8_t *nodes, int is_service, unsigned algorithm, const uint8_t **found,
                       uint8_t *out)
{
    int n = 0;

    for (int i = 0; i < NODES; i++) {
        const unsigned node = number_at(nodes + i * NODE);

        if (algorithm == DES_MARK && is_service && key_free(node))
            continue;
        found[n] = needed(lists, node, algorithm, out);
        if (found[n++] == NULL)
            return -1;
    }
    return n;
}

// A block under each key in turn.
static void under_each(block_function *encrypt, const uint8_t *const *keys, int n, uint8_t *block)
{
    for (int i = 0; i < n; i++)
        encrypt(keys[i], block, block);
}

#endif
