// Calls of the library as this test has them, with the answers that they have to give. What holds of every call pass.h says; beside that a
// session is after the call as the call says, to the byte.
#ifndef CALL_H
#define CALL_H

#include "pass.h"

// What an operation does not take is left out of the call: scheme, code and number of some, the ID of others.
struct call {
    enum operation operation;
    uint8_t scheme;
    uint8_t code;
    // of INDEX and SEARCH the node
    uint16_t number;
    // of a making that takes one
    uint16_t ceiling;
    // a transaction ID; of a challenge the IDm
    struct text id;
    // of a challenge the derived keys, of a derivation the key entries
    struct text credentials;
    // of a challenge the random block, or the challenge that is read
    struct text data;
    // of a challenge alone: Challenge 3C, and the challenge that is checked
    struct text challenge_3c;
    struct text checked;
    // of a derivation alone
    struct text areas;
    struct text services;
    struct text individual;
    // of the making of a session alone
    struct text nodes;
    // of a call with a session: its bytes, and those after the call where it changes
    struct text session;
    struct text after;
};

// A call with ID and credentials of the right size, of the seed.
struct call call_of(enum operation operation, unsigned scheme, unsigned seed, struct text data);

// The call is turned down with this answer in an output of this room, wherever the buffers stand. The answer is a number, with 4 also
// the node (missing).
void refuses_in(const struct call *c, size_t room, uint64_t refusal);

// The same in an output of any room: of none, of one that is large enough for any answer, and some between.
void refuses(const struct call *c, uint64_t refusal);

// The padding that an acceptance of the call has to tell, as bits of the answer: 0 where nothing is sealed.
uint64_t padding_bits(const struct call *c);

// The call is accepted with this transaction number, its padding, and n bytes, in an output of n bytes and in larger ones, and turned down
// with 16 in smaller ones, which change no session. The bytes are `wanted`; where that is NULL any, but the same each time. They are copied
// to `got` if that is not NULL.
void gives(const struct call *c, unsigned transaction, size_t n, const uint8_t *wanted, uint8_t *got);

// The same for a derivation, which is accepted with a scheme.
void derives(const struct call *c, unsigned scheme, size_t n, const uint8_t *wanted, uint8_t *got);

// A session of these bytes is made, in an output of exactly their size. In any other it is turned down with 17.
void makes(const struct call *c, const uint8_t *wanted);

// The call, which has no output, is accepted with this answer, wherever the buffers stand.
void tells(const struct call *c, uint64_t answer);

// One call with the buffers at one place, for what is tried too often for more: an answer, and its bytes if it has a length.
void answers(const struct call *c, size_t room, unsigned place, uint64_t answer, const uint8_t *wanted);

// How many calls there were.
unsigned long calls(void);

// Says what was called last.
void describe_call(char *to, size_t n);

#endif
