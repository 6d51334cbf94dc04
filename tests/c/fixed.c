#include "parts.h"

#include "call.h"
#include "check.h"
#include "layout.h"

#include "../../include/felica_secure.h"

// Where the operation takes a mark: every one but the two, with credentials of either size.
static void marks(enum operation operation)
{
    unsigned mark, scheme;

    for (scheme = 1; scheme <= 2; scheme++) {
        for (mark = 0; mark < 256; mark++) {
            struct call c = call_of(operation, scheme, mark, sample(mark, 40));

            c.scheme = (uint8_t)mark;
            if (mark != scheme) {
                refuses(&c, FELICA_BAD_MARK_OR_LENGTH);
            }
        }
    }
}

static void sizes(enum operation operation, unsigned scheme)
{
    // the last ones would be right if they were cut to 8 or 16 bits
    static const size_t odd[] = {256 + 6, 256 + 8, 256 + 36, 65536 + 6, 65536 + 8, 65536 + 36};
    size_t i, n;

    for (i = 0; i < 80 + sizeof odd / sizeof odd[0]; i++) {
        struct call c = call_of(operation, scheme, (unsigned)i, sample((unsigned)i, 40));

        n = i < 80 ? i : odd[i - 80];
        if (n != credentials_size(scheme)) {
            c.credentials = sample((unsigned)i, n);
            refuses(&c, FELICA_BAD_MARK_OR_LENGTH);
        }
        c = call_of(operation, scheme, (unsigned)i, sample((unsigned)i, 40));
        if (takes(operation, IN_ID) && n != 6) {
            c.id = sample((unsigned)i, n);
            refuses(&c, FELICA_BAD_MARK_OR_LENGTH);
        }
    }
}

void fixed(void)
{
    unsigned scheme;

    part("marks and fixed lengths");
    marks(SEAL);
    marks(FRAME);
    marks(OPEN);
    for (scheme = 1; scheme <= 2; scheme++) {
        sizes(SEAL, scheme);
        sizes(FRAME, scheme);
        sizes(OPEN, scheme);
    }
    sizes(TRIMMED, FELICA_SCHEME_DES);
    sizes(AUTH2_SEAL, FELICA_SCHEME_DES);
    sizes(AUTH2_OPEN_DES, FELICA_SCHEME_DES);
    sizes(AUTH2_OPEN_AES, FELICA_SCHEME_AES128);
    sizes(PACKAGE, FELICA_SCHEME_DES);
}
