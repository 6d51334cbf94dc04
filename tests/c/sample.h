// Bytes to call with: the same in each run.
#ifndef SAMPLE_H
#define SAMPLE_H

#include <stddef.h>
#include <stdint.h>

// A byte string.
struct text {
    const uint8_t *at;
    size_t n;
};

struct text text_of(const uint8_t *at, size_t n);

// n bytes, others for another seed. n up to SAMPLE_MAX.
#define SAMPLE_MAX 140000
struct text sample(unsigned seed, size_t n);

#endif
