// Memory between two pages that can be neither read nor written: a step over its end stops the program.
// The archive is not compiled with a sanitizer, so this is what finds a read that goes too far.
#ifndef FENCE_H
#define FENCE_H

#include <stddef.h>
#include <stdint.h>

struct fence {
    uint8_t *start;
    uint8_t *end;
};

// Where a buffer stands: in the middle, with room on both sides; at either end; in the middle, but NULL if it has no bytes.
enum place { MIDDLE, AT_START, AT_END, NULL_IF_EMPTY, PLACES };

// Takes at least n bytes.
struct fence fence_of(size_t n);

// Where n bytes stand.
uint8_t *place_in(const struct fence *f, size_t n, enum place where);

#endif
