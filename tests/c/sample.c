#include "sample.h"

#include "check.h"

#define SEEDS 65536

static uint8_t pool[SEEDS + SAMPLE_MAX];

// A linear congruential generator; its high bits are good enough to tell strings apart.
static void fill_pool(void)
{
    uint64_t state = 1;
    size_t i;

    for (i = 0; i < sizeof pool; i++) {
        state = state * 6364136223846793005u + 1442695040888963407u;
        pool[i] = (uint8_t)(state >> 56);
    }
}

struct text text_of(const uint8_t *at, size_t n)
{
    struct text t;

    t.at = at;
    t.n = n;
    return t;
}

struct text sample(unsigned seed, size_t n)
{
    static int filled;

    if (!filled) {
        fill_pool();
        filled = 1;
    }
    check(n <= SAMPLE_MAX, "the test's own sample is too small");
    return text_of(pool + (size_t)seed * 7919 % SEEDS, n);
}
