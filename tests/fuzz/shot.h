// A call of one of the C functions, as it is made of the fuzzer's bytes, and what it did.
#ifndef SHOT_H
#define SHOT_H

#include "../c/operations.h"

#define INPUT_MAX 5000
#define OUTPUT_MAX 6000

// An input and its bytes.
struct buffer {
    uint8_t at[INPUT_MAX];
    size_t n;
};

struct shot {
    enum operation op;
    uint8_t scheme;
    uint8_t code;
    // transaction number, or a node
    uint16_t number;
    // of a session that is made
    uint16_t ceiling;
    struct buffer in[INPUTS];
    size_t room;
    // where the buffers stand (tests/c/fence.h)
    unsigned place;
};

// What a call did: its answer, the bytes that it wrote, the session behind it.
struct result {
    uint64_t answer;
    uint8_t out[OUTPUT_MAX];
    uint8_t session[INPUT_MAX];
};

// ---- decode.c

// Makes a call of the fuzzer's bytes (recipe.h): any bytes are one.
void decode(const uint8_t *bytes, size_t n, struct shot *s);
// Whether it makes a session, for which the output has to have exactly one size.
int makes_session(enum operation op);

// ---- fire.c

// Makes a call with its buffers between pages that cannot be touched, and sees to what holds of every call (tests/c/pass.h). The output has
// `room` bytes, which are `ink` before.
void fire(const struct shot *s, size_t room, unsigned place, uint8_t ink, struct result *r);

// ---- inverse.c

// What was sealed opens, what was opened seals to the same bytes, what was made is read and accepted. A search answers by its rule.
void inverse(const struct shot *s, const struct result *r);

// ---- sessions.c

// What the call did to its session is what the rules say, and 17 is answered where the bytes are no session, and only there.
void session_after(const struct shot *s, const struct result *r);
// A session as it was made, what it tells, and the inverses of its sealing and opening.
void session_inverse(const struct shot *s, const struct result *r);

// ---- histories.c

// Takes a session that was made through a history, which is read off the data of its making.
void history(const struct shot *s, const struct result *r);

#endif
