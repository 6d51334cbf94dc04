// What the document says of derivation and challenges, written out here once more and not taken from the library; and lists to call with.
#ifndef MODEL_DERIVATION_H
#define MODEL_DERIVATION_H

#include "models.h"

// Lists of a derivation, to be filled. What is behind the entries may be used to make a list longer by a part of one.
#define KEYS_ROOM 200
#define NODES_ROOM 70
struct lists {
    uint8_t keys[KEYS_ROOM * 19];
    uint8_t areas[NODES_ROOM * 2];
    uint8_t services[NODES_ROOM * 2];
    size_t keys_n, areas_n, services_n;
};

void clear(struct lists *l);
// An entry: node, algorithm, and a key of them and the seed.
void add_key(struct lists *l, unsigned node, unsigned algorithm, unsigned seed);
void add_area(struct lists *l, unsigned node);
void add_service(struct lists *l, unsigned node);
// A derivation of these lists, with no individual key.
struct call derivation(const struct lists *l, unsigned mark);
// A search of the keys.
struct call search(const struct lists *l, unsigned node, unsigned algorithm);

// What a derivation answers in an output that is large enough.
struct modelled derivation_of(const struct call *c);

// The block that a making writes, or that a checking accepts.
void challenge_of(const struct call *c, uint8_t *to);
// AES session keys, 32 bytes.
void session_keys_of(const uint8_t *random_2, uint8_t *to);

#endif
