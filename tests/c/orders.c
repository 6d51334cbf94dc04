#include "parts.h"

#include "call.h"
#include "check.h"
#include "layout.h"

#include "../../include/felica_secure.h"

#include <string.h>

// What is wrong with a call, as bits of a set. Every set is tried.
enum { MARK = 1, ID = 2, CREDENTIALS = 4, ROOM = 8, SETS = 16 };

// A mark or a fixed length wrong, as the set says. An operation that has no mark or no ID ignores what is done to it.
static void spoil(struct call *c, unsigned set)
{
    static const uint8_t marks[] = {0, 3, 255};
    static const size_t ids[] = {0, 5, 7};

    if (set & MARK) {
        c->scheme = marks[set % 3];
    }
    if (set & ID) {
        c->id.n = ids[set % 3];
    }
    if (set & CREDENTIALS) {
        c->credentials.n -= set & ID ? c->credentials.n : 1;
    }
}

static unsigned looks_at(enum operation operation)
{
    return (takes(operation, TAKES_SCHEME) ? MARK : 0) | (takes(operation, IN_ID) ? ID : 0) | CREDENTIALS;
}

// Each set on top of a call that gives `number`: 17 comes before it, 16 only where it is 0. An accepted call fills `size` bytes.
static void each_set(const struct call *good, unsigned number, size_t size)
{
    unsigned set;

    for (set = 0; set < SETS; set++) {
        struct call c = *good;
        size_t room = set & ROOM ? (size == 0 ? 0 : size - 1) : size;

        spoil(&c, set);
        if (set & looks_at(good->operation)) {
            refuses_in(&c, room, FELICA_BAD_MARK_OR_LENGTH);
        } else if (number != 0) {
            refuses_in(&c, room, number);
        } else if (set & ROOM && size != 0) {
            refuses_in(&c, room, FELICA_OUTPUT_TOO_SMALL);
        } else {
            gives(&c, has_trait(good->operation, NUMBERED) ? good->number : 0, size, NULL, NULL);
        }
    }
}

// 17, 12, 16
static void sealing(enum operation operation, unsigned scheme)
{
    size_t front = operation == FRAME ? 2 : 0;
    struct call c = call_of(operation, scheme, 60, sample(60, payload_max(scheme)));

    each_set(&c, 0, sealed_size(scheme, payload_max(scheme)) + front);
    c.data.n++;
    each_set(&c, FELICA_TOO_LONG, sealed_size(scheme, c.data.n) + front);
}

// 17, 10, 11, 12, 13, 14, 16; with AES no 10 and no 14
static void opening(enum operation operation, unsigned scheme)
{
    // lengths for which two conditions hold are among them: 9 and 257
    static const size_t sizes[] = {0, 8, 9, 10, 15, 16, 24, 252, 253, 254, 255, 256, 257, 264};
    struct call c = call_of(SEAL, scheme, 61, sample(61, 19));
    struct text id = c.id;
    uint8_t sealed[255];
    size_t n = sealed_size(scheme, 19), size = opened_size(scheme, n), i;

    if (operation == AUTH2_OPEN_AES) {
        c.code = 0x43;
    }
    gives(&c, 0, n, NULL, sealed);
    c.operation = operation;
    for (i = 0; i < sizeof sizes / sizeof sizes[0]; i++) {
        c.data = sample(62, sizes[i]);
        each_set(&c, opening_number(scheme, sizes[i]), 100);
    }

    // DES: 19 bytes are padded by 5, which the trimmed opening drops
    c.data = text_of(sealed, n);
    each_set(&c, 0, operation == TRIMMED ? 19 : size);
    c.id = sample(63, 6);
    check(memcmp(c.id.at, id.at, 6) != 0, "sample");
    each_set(&c, scheme == FELICA_SCHEME_DES ? FELICA_ID_DIFFERS : FELICA_MAC_DIFFERS, size);
    sealed[n - 1] ^= 1;
    each_set(&c, FELICA_MAC_DIFFERS, size);
    c.id = id;
    each_set(&c, FELICA_MAC_DIFFERS, size);
}

// Sealing 17, 12, 16; opening 17, 10, 12, 13, 16
static void authentication2(void)
{
    struct call c = call_of(AUTH2_SEAL, FELICA_SCHEME_DES, 64, sample(64, 240));
    uint8_t sealed[248];

    each_set(&c, 0, 248);
    c.data.n = 241;
    each_set(&c, FELICA_TOO_LONG, 256);
    c.data.n = 240;
    gives(&c, 0, 248, NULL, sealed);

    c.operation = AUTH2_OPEN_DES;
    c.data = text_of(sealed, 248);
    each_set(&c, 0, 240);
    sealed[100] ^= 0x80;
    each_set(&c, FELICA_MAC_DIFFERS, 240);
    c.data = sample(65, 0);
    each_set(&c, FELICA_MAC_DIFFERS, 0);
    c.data.n = 8;
    each_set(&c, FELICA_MAC_DIFFERS, 0);
    c.data.n = 256;
    each_set(&c, FELICA_TOO_LONG, 248);
    c.data.n = 257;
    each_set(&c, FELICA_NOT_WHOLE_BLOCKS, 249);
    c.data.n = 7;
    each_set(&c, FELICA_NOT_WHOLE_BLOCKS, 0);
}

// 17, 10, 12, 16
static void package(void)
{
    struct call c = call_of(PACKAGE, FELICA_SCHEME_DES, 66, sample(66, 4096));

    each_set(&c, 0, 4104);
    c.data.n = 4097;
    each_set(&c, FELICA_NOT_WHOLE_BLOCKS, 4105);
    c.data.n = 4104;
    each_set(&c, FELICA_TOO_LONG, 4112);
    c.data.n = 0;
    each_set(&c, FELICA_NOT_WHOLE_BLOCKS, 8);
}

void orders(void)
{
    unsigned scheme;

    part("orders of the refusals");
    for (scheme = 1; scheme <= 2; scheme++) {
        sealing(SEAL, scheme);
        sealing(FRAME, scheme);
        opening(OPEN, scheme);
    }
    opening(TRIMMED, FELICA_SCHEME_DES);
    opening(AUTH2_OPEN_AES, FELICA_SCHEME_AES128);
    authentication2();
    package();
}
