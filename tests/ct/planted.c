#include "planted.h"

#define APART __attribute__((noinline))

// Any table will do. It stands with those of the archive.
__attribute__((section("felica_tables"))) static const uint8_t table[256] = {7, 1, 4};

APART int planted_early_exit(const uint8_t *a, const uint8_t *b, size_t n)
{
    size_t i;

    for (i = 0; i < n; i++) {
        if (a[i] != b[i]) {
            return 0;
        }
    }
    return 1;
}

APART int planted_all_bytes(const uint8_t *a, const uint8_t *b, size_t n)
{
    volatile uint8_t differ = 0;
    size_t i;

    for (i = 0; i < n; i++) {
        differ = (uint8_t)(differ | (a[i] ^ b[i]));
    }
    return differ == 0;
}

APART unsigned planted_lookup(uint8_t index)
{
    return table[index];
}

// The reading is apart, so that the jump has a function of its own.
static unsigned seen;
APART int planted_jump_behind_lookup(uint8_t index)
{
    if (planted_lookup(index) > 3) {
        seen++;
        return 1;
    }
    return 0;
}

// A byte of a closed key is read, and nothing depends on it.
APART unsigned planted_key_read(const volatile uint8_t *keys, size_t n)
{
    return keys[n - 1];
}
