// What the document says of sealing and opening, written out here once more and not taken from the library.
#ifndef MODEL_FRAMES_H
#define MODEL_FRAMES_H

#include "models.h"

// The bytes of a sealing that is accepted, and how many they are.
size_t seal_of(const struct call *c, uint8_t *to);

// What an opening answers in an output that is large enough.
struct opened {
    unsigned number;
    unsigned transaction;
    uint8_t bytes[256];
    size_t n;
};
struct opened opening_of(const struct call *c);

#endif
