// Two archives of the library in one run: what compare.c and compare_rows.c share.
#ifndef HERNOTXAK_BENCH_COMPARE_H
#define HERNOTXAK_BENCH_COMPARE_H

#include "bench.h"

#include "../include/felica_secure.h"

// What a call writes: the answer, then the output or the session, with room behind.
enum { ROOM = ANSWER + FELICA_PACKAGE_MAX + 64 };

// What a call reads beside the input: the scheme, the payload's length, a session, and what was made for it to open, read or check.
struct work {
    const struct input *in;
    uint8_t scheme;
    size_t n;
    uint8_t session[FELICA_SESSION_SIZE];
    uint8_t given[FELICA_FRAME_MAX];
    size_t given_n;
};

// A call of the library, or a few that belong together.
typedef void call(const struct work *w, uint8_t *out);

// A row: what it measures, its scheme and payload, its call, the call that makes what is given to it, or NULL, and the number that its
// answer must have.
struct compared {
    const char *title;
    uint8_t scheme;
    size_t n;
    call *run;
    call *make;
    unsigned refusal;
};

// What each of the two loaded libraries has for the program.
extern const struct compared compared_rows[];
extern const int compared_rows_n;
void set_session(struct work *w);

#endif
