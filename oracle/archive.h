// One call of the library, as oracle/archive.c makes it.
#ifndef ARCHIVE_H
#define ARCHIVE_H

#include <stddef.h>
#include <stdint.h>

#define INPUTS 5

struct bytes {
    uint8_t *at;
    size_t n;
};

// What an operation does not take is 0.
struct call {
    const char *operation;
    uint8_t scheme;
    uint8_t code;
    // a transaction number, or a node
    uint16_t number;
    // of a session that is made
    uint16_t ceiling;
    // of a forecast
    size_t length;
    // in the order of the line
    struct bytes in[INPUTS];
    struct bytes out;
    struct bytes session;
};

// A fault on purpose, by its name (plants.c). Answers 0 where there is no such name.
int choose_plant(const char *name);

// Makes the fault that was chosen, after the call: in the answer, the output, its surroundings, an input or the session. `before` is the
// session before the call.
uint64_t planted(const struct call *c, const uint8_t *before, uint64_t answer);

// Says the names, one to a line.
void list_plants(void);

#endif
