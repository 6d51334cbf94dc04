// One call of the library with its buffers between pages that cannot be touched, and what has to hold of every call:
// - no byte outside the output changes, no input changes, and a session only where the function may change it;
// - a refusal is one of the function's own, changes no byte of the output, and every other bit of its answer is 0, but for the node with 4;
// - an acceptance changes no byte of the output behind its length; bits 56 to 63 of its answer are 0; it has a scheme, and no length and
//   no transaction number, but where the function gives them; of a sealing it has the padding that the payload's length says, else none.
#ifndef PASS_H
#define PASS_H

#include "fence.h"
#include "operations.h"

// The limits of what can be passed.
#define DATA_MAX 70000
#define ROOM_MAX 140000
// How far around the output and the session their surroundings are watched.
#define AROUND 64

// What came of a call. The bytes are there until the next.
struct passed {
    uint64_t answer;
    // the output, and how many bytes of it were written
    const uint8_t *out;
    size_t n;
    const uint8_t *session;
};

// Makes the call with an output of `room` bytes. The output, and what is around it and around the session, are `ink` before: 2 * AROUND
// bytes more than the larger of the two.
void pass(const struct given *g, size_t room, enum place where, const uint8_t *ink, struct passed *p);

// The refusal 4 of a node.
uint64_t missing(unsigned node);

#endif
