// The calls that are measured, one for each run of the program.
#ifndef SCENES_H
#define SCENES_H

#include <stddef.h>
#include <stdint.h>

// What is wrong with what the call gets. CODE: data that was sealed under another code, so that the DES MAC's start differs in one byte.
// ENDS_..: nothing is, and the payload ends in these bytes. FOUND_LAST, NOT_THERE: nothing is, and the key sought is the last, or none.
// CEILING_..: nothing is, and the session's ceiling is so far above its number.
enum twist {
    RIGHT,
    FIRST_BYTE,
    LAST_BYTE,
    CODE,
    ID_FIRST_BYTE,
    ID_LAST_BYTE,
    NUMBER,
    ENDS_5A,
    ENDS_5A_03,
    ENDS_03_03_03,
    FOUND_LAST,
    NOT_THERE,
    CEILING_BELOW,
    CEILING_REACHED,
    CEILING_NEXT
};

struct scene {
    // the function, and what it is called with
    const char *function;
    const char *with;
    // makes what the call needs, marks the secrets, and calls
    uint64_t (*run)(const struct scene *s);
    unsigned scheme;
    enum twist twist;
    // the number that it has to answer
    unsigned number;
    // how many bytes at the front of the output tell of no secret, where it is accepted; all others have to
    size_t open_front;
};

extern const struct scene scenes[];
extern const size_t scenes_count;

// Whether an accepted call may give n bytes: a trimmed opening has to give those that are no padding. Of a search n is the count, which has to be
// right.
int length_fits(const struct scene *s, size_t n);

// What the call wrote, if it was accepted.
extern uint8_t out[512];

#endif
