#include "parts.h"

#include "call.h"
#include "check.h"
#include "layout.h"

#include "../../include/felica_secure.h"

#include <string.h>

// Every single bit changed has to give 13, and nothing else: not 0, and not 14.
// AES: the bit is in the number, which the MAC covers, or in the payload or the MAC themselves, one bit of which it changes.
// DES: it makes another block of the one that it is in, and changes one bit of the next. The MAC is checked before the ID. That the MAC
// of another plain text is the one behind it, one chance in about 2^56 at a bit, does not occur with these samples.
static void each_bit(const struct call *whole)
{
    uint8_t data[255];
    struct call c = *whole;
    size_t at;
    unsigned bit;

    memcpy(data, whole->data.at, whole->data.n);
    c.data = text_of(data, whole->data.n);
    for (at = 0; at < whole->data.n; at++) {
        for (bit = 0; bit < 8; bit++) {
            data[at] ^= (uint8_t)(1u << bit);
            refuses_in(&c, bit % 2 == 0 ? 0 : 255, FELICA_MAC_DIFFERS);
            data[at] ^= (uint8_t)(1u << bit);
        }
    }
}

static unsigned number_of(const struct call *c)
{
    return c->operation == AUTH2_OPEN_DES ? authentication2_number(c->data.n) : opening_number(c->scheme, c->data.n);
}

// Cut anywhere, from the end and from the start, and drawn out: turned down as data that nobody sealed.
static void each_cut(const struct call *whole)
{
    uint8_t data[300];
    struct call c = *whole;
    size_t n = whole->data.n, cut;

    memcpy(data, whole->data.at, n);
    memcpy(data + n, sample(9, 300 - n).at, 300 - n);
    for (cut = 1; cut <= n; cut++) {
        c.data = text_of(data, n - cut);
        refuses_in(&c, 255, number_of(&c));
        c.data = text_of(data + cut, n - cut);
        refuses_in(&c, 255, number_of(&c));
    }
    for (cut = n + 1; cut <= 300; cut++) {
        c.data = text_of(data, cut);
        refuses_in(&c, 255, number_of(&c));
    }
}

static void sealed_data(unsigned scheme, size_t n)
{
    struct call c = call_of(SEAL, scheme, (unsigned)n + 40, sample((unsigned)n + 900, n));
    uint8_t sealed[255];

    if (scheme == FELICA_SCHEME_AES128) {
        c.code = 0x43;
    }
    gives(&c, 0, sealed_size(scheme, n), NULL, sealed);
    c.data = text_of(sealed, sealed_size(scheme, n));
    c.operation = OPEN;
    each_bit(&c);
    each_cut(&c);
    c.operation = scheme == FELICA_SCHEME_DES ? TRIMMED : AUTH2_OPEN_AES;
    each_bit(&c);
    each_cut(&c);
}

static void authentication2(size_t n)
{
    struct call c = call_of(AUTH2_SEAL, FELICA_SCHEME_DES, (unsigned)n + 40, sample((unsigned)n + 950, n));
    uint8_t sealed[255];

    gives(&c, 0, padded(n) + 8, NULL, sealed);
    c.data = text_of(sealed, padded(n) + 8);
    c.operation = AUTH2_OPEN_DES;
    each_bit(&c);
    each_cut(&c);
}

void damages(void)
{
    static const size_t sizes[] = {0, 1, 7, 8, 9, 15, 16, 17, 31, 40, 100, 232, 240, 243};
    size_t i;

    part("damaged data");
    for (i = 0; i < sizeof sizes / sizeof sizes[0]; i++) {
        if (sizes[i] <= 232) {
            sealed_data(FELICA_SCHEME_DES, sizes[i]);
        }
        if (sizes[i] <= 240) {
            authentication2(sizes[i]);
        }
        sealed_data(FELICA_SCHEME_AES128, sizes[i]);
    }
}
