#include "parts.h"

#include "call.h"
#include "check.h"
#include "layout.h"

#include "../../include/felica_secure.h"

#include <string.h>

// Sealing, then opening, under one number. The response frame is a length byte that counts itself, the code, and the same sealed data.
static void trip(unsigned scheme, unsigned seed, uint16_t number, struct text payload)
{
    struct call c = call_of(SEAL, scheme, seed, payload);
    uint8_t sealed[255], frame[255], opened[255];
    size_t n = sealed_size(scheme, payload.n);
    size_t opened_n = as_opened(scheme, payload, opened);

    c.number = number;
    gives(&c, 0, n, NULL, sealed);
    if (scheme == FELICA_SCHEME_AES128) {
        check(sealed[0] == number % 256 && sealed[1] == number / 256, "the number is not in front of AES data, low byte first");
    }

    c.operation = OPEN;
    c.data = text_of(sealed, n);
    check(opened_n == opened_size(scheme, n), "sizes");
    gives(&c, number, opened_n, opened, NULL);

    c.operation = FRAME;
    c.data = payload;
    gives(&c, 0, n + 2, NULL, frame);
    check(frame[0] == n + 2, "the length byte");
    check(frame[1] == c.code, "the code");
    check(memcmp(frame + 2, sealed, n) == 0, "a frame's data is not the sealed data");
}

// The payload comes back padded. Nothing comes before the MAC of an empty one, so that it does not open.
static void authentication2_des(size_t n)
{
    struct text payload = sample((unsigned)n + 500, n);
    struct call c = call_of(AUTH2_SEAL, FELICA_SCHEME_DES, (unsigned)n, payload);
    uint8_t sealed[255], opened[255];
    size_t opened_n = as_opened(FELICA_SCHEME_DES, payload, opened);

    gives(&c, 0, opened_n + 8, NULL, sealed);
    c.operation = AUTH2_OPEN_DES;
    c.data = text_of(sealed, opened_n + 8);
    if (n == 0) {
        refuses(&c, FELICA_MAC_DIFFERS);
    } else {
        gives(&c, 0, opened_n, opened, NULL);
    }
}

// AES data under code 0x43 opens; under the codes next to it it does not.
static void authentication2_aes(size_t n)
{
    struct text payload = sample((unsigned)n + 600, n);
    unsigned code;

    for (code = 0x42; code <= 0x44; code++) {
        struct call c = call_of(SEAL, FELICA_SCHEME_AES128, (unsigned)n, payload);
        uint8_t sealed[255];

        c.code = (uint8_t)code;
        gives(&c, 0, n + 10, NULL, sealed);
        c.operation = AUTH2_OPEN_AES;
        c.data = text_of(sealed, n + 10);
        if (code == 0x43) {
            gives(&c, c.number, n, payload.at, NULL);
        } else {
            refuses(&c, FELICA_MAC_DIFFERS);
        }
    }
}

void trips(void)
{
    static const uint16_t numbers[] = {0, 1, 0x00FF, 0x0100, 0x1234, 0x7FFF, 0x8000, 0xFFFE, 0xFFFF};
    unsigned scheme;
    size_t n, i;

    part("sealed, then opened");
    for (scheme = 1; scheme <= 2; scheme++) {
        for (n = 0; n <= payload_max(scheme); n++) {
            trip(scheme, (unsigned)n, (uint16_t)(n * 257 + 3), sample((unsigned)n + 400, n));
        }
        for (i = 0; i < sizeof numbers / sizeof numbers[0]; i++) {
            trip(scheme, (unsigned)i + 700, numbers[i], sample((unsigned)i, 21));
        }
    }
    for (n = 0; n <= 240; n++) {
        authentication2_des(n);
    }
    for (n = 0; n <= 243; n++) {
        authentication2_aes(n);
    }
}
