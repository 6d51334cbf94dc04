#include "parts.h"

#include "call.h"
#include "check.h"
#include "layout.h"

#include "../../include/felica_secure.h"

static void sealing(enum operation operation, unsigned scheme, size_t n)
{
    struct call c = call_of(operation, scheme, (unsigned)n, sample((unsigned)n, n));

    if (n > payload_max(scheme)) {
        refuses(&c, FELICA_TOO_LONG);
    } else {
        gives(&c, 0, sealed_size(scheme, n) + (operation == FRAME ? 2 : 0), NULL, NULL);
    }
}

// Data that nobody sealed.
static void opening(enum operation operation, unsigned scheme, size_t n)
{
    struct call c = call_of(operation, scheme, (unsigned)n, sample((unsigned)n, n));

    refuses(&c, opening_number(scheme, n));
}

static void authentication2(size_t n)
{
    struct call sealed = call_of(AUTH2_SEAL, FELICA_SCHEME_DES, (unsigned)n, sample((unsigned)n, n));
    struct call opened = call_of(AUTH2_OPEN_DES, FELICA_SCHEME_DES, (unsigned)n, sample((unsigned)n, n));

    if (padded(n) > 240) {
        refuses(&sealed, FELICA_TOO_LONG);
    } else {
        gives(&sealed, 0, padded(n) + 8, NULL, NULL);
    }
    refuses(&opened, authentication2_number(n));
}

static void package(size_t n)
{
    struct call c = call_of(PACKAGE, FELICA_SCHEME_DES, (unsigned)n, sample((unsigned)n, n));

    if (n == 0 || n % 8 != 0) {
        refuses(&c, FELICA_NOT_WHOLE_BLOCKS);
    } else if (n > 4096) {
        refuses(&c, FELICA_TOO_LONG);
    } else {
        gives(&c, 0, n + 8, NULL, NULL);
    }
}

static void length(size_t n)
{
    unsigned scheme;

    for (scheme = 1; scheme <= 2; scheme++) {
        sealing(SEAL, scheme, n);
        sealing(FRAME, scheme, n);
        opening(OPEN, scheme, n);
    }
    opening(TRIMMED, FELICA_SCHEME_DES, n);
    opening(AUTH2_OPEN_AES, FELICA_SCHEME_AES128, n);
    authentication2(n);
    package(n);
}

void lengths(void)
{
    // where a length that is cut to 8 or 16 bits would be a good one
    static const size_t some[] = {512, 528, 4080, 4088, 4095, 4096, 4097, 4103, 4104, 4105, 4112, 65535, 65536, 65552, 65600};
    size_t n, i;

    part("lengths");
    for (n = 0; n <= 300; n++) {
        length(n);
    }
    for (i = 0; i < sizeof some / sizeof some[0]; i++) {
        length(some[i]);
    }
}
