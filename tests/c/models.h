// The models: what the document says of a call, written out in this test once more and not taken from the library. Each family of
// operations has its own.
#ifndef MODELS_H
#define MODELS_H

#include "call.h"

// What a call answers, and the bytes that it writes.
struct modelled {
    uint64_t answer;
    uint8_t bytes[256];
};

// By the model of the call's family, for an output that is large enough. Answers 0 where that model does not have the operation.
int model_of(const struct call *c, struct modelled *m);

#define MODEL(family) int model_##family(const struct call *c, struct modelled *m);
FAMILIES(MODEL)
#undef MODEL

#endif
