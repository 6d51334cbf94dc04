#include "layout.h"

#include "../../include/felica_secure.h"

#include <string.h>

size_t padded(size_t n)
{
    return (n + 7) / 8 * 8;
}

size_t block_size(unsigned scheme)
{
    return scheme == FELICA_SCHEME_DES ? 8 : 16;
}

size_t derived_size(unsigned scheme)
{
    return scheme == FELICA_SCHEME_DES ? 16 : 32;
}

size_t credentials_size(unsigned scheme)
{
    return scheme == FELICA_SCHEME_DES ? 8 : 36;
}

size_t payload_max(unsigned scheme)
{
    return scheme == FELICA_SCHEME_DES ? 232 : 243;
}

// DES: number 2, ID 6, payload, padding, MAC 8. AES: number 2, payload, MAC 8.
size_t sealed_size(unsigned scheme, size_t n)
{
    return scheme == FELICA_SCHEME_DES ? padded(2 + 6 + n) + 8 : 2 + n + 8;
}

size_t opened_size(unsigned scheme, size_t n)
{
    return scheme == FELICA_SCHEME_DES ? n - 16 : n - 10;
}

unsigned padding_of(unsigned scheme, size_t n)
{
    return scheme == FELICA_SCHEME_DES ? (unsigned)(padded(n) - n) : 0;
}

unsigned opening_number(unsigned scheme, size_t n)
{
    if (scheme == FELICA_SCHEME_DES && n % 8 != 0) {
        return FELICA_NOT_WHOLE_BLOCKS;
    }
    if (n < (scheme == FELICA_SCHEME_DES ? 16u : 10u)) {
        return FELICA_TOO_SHORT;
    }
    if (n > 253) {
        return FELICA_TOO_LONG;
    }
    return FELICA_MAC_DIFFERS;
}

// Data of 0 and of 8 bytes has nothing before its MAC, and counts as data whose MAC differs.
unsigned authentication2_number(size_t n)
{
    if (n % 8 != 0) {
        return FELICA_NOT_WHOLE_BLOCKS;
    }
    return n > 253 ? FELICA_TOO_LONG : FELICA_MAC_DIFFERS;
}

// Padding: only off a boundary, and each byte is the count of bytes added.
size_t as_opened(unsigned scheme, struct text payload, uint8_t *to)
{
    unsigned added = padding_of(scheme, payload.n);

    memcpy(to, payload.at, payload.n);
    memset(to + payload.n, (int)added, added);
    return payload.n + added;
}

uint64_t search_answer(struct text keys, unsigned node, unsigned algorithm)
{
    uint64_t looked = 0;
    size_t at;

    if (keys.n % 19 != 0 || (algorithm != FELICA_ALGORITHM_DES && algorithm != FELICA_ALGORITHM_AES128)) {
        return FELICA_BAD_MARK_OR_LENGTH;
    }
    if (keys.n > 128 * 19) {
        return FELICA_TOO_MANY_ENTRIES;
    }
    for (at = 0; at < keys.n; at += 19) {
        looked++;
        if (keys.at[at] + 256u * keys.at[at + 1] == node && keys.at[at + 2] == algorithm) {
            return looked << 16 | (uint64_t)algorithm << 8;
        }
    }
    return looked << 16;
}

size_t trimmed_size(struct text payload)
{
    unsigned last = payload.n != 0 ? payload.at[payload.n - 1] : 0;
    size_t run = 0;

    while (run < payload.n && payload.at[payload.n - 1 - run] == last) {
        run++;
    }
    return last >= 1 && last <= 7 && run >= last ? payload.n - last : payload.n;
}
