#include "parts.h"

#include "call.h"
#include "check.h"
#include "layout.h"

#include "../../include/felica_secure.h"

#include <string.h>

#define MOST 232

// The trimmed opening of a payload as it was sealed, under `seed`, at `sealed`.
static struct call trimming_of(unsigned seed, struct text payload, uint8_t sealed[255])
{
    struct call c = call_of(TRIMMED, FELICA_SCHEME_DES, seed, payload);
    size_t n = sealed_size(FELICA_SCHEME_DES, payload.n);

    check(felica_encrypt_command(c.scheme, c.code, c.number, c.id.at, c.id.n, c.credentials.at, c.credentials.n, payload.at, payload.n,
                                 sealed, 255) == ((uint64_t)n << 16 | (uint64_t)padding_of(FELICA_SCHEME_DES, payload.n) << 48),
          "a payload is not sealed");
    c.data = text_of(sealed, n);
    return c;
}

// What was padded comes back exactly; what stood in whole blocks loses what looks like padding.
static void trim(unsigned seed, struct text payload)
{
    uint8_t sealed[255], opened[255];
    size_t kept = trimmed_size(text_of(opened, as_opened(FELICA_SCHEME_DES, payload, opened)));
    struct call c = trimming_of(seed, payload, sealed);
    struct text id = c.id;

    check(payload.n % 8 == 0 || kept == payload.n, "padding is not what the trimmed opening drops");
    gives(&c, c.number, kept, opened, NULL);

    c.id = sample(seed + 1, 6);
    check(memcmp(c.id.at, id.at, 6) != 0, "sample");
    refuses(&c, FELICA_ID_DIFFERS);
}

// Whole blocks of n bytes, of which just the last `run` are `last`: in outputs of each size up to one more than n.
static void run_of(unsigned last, size_t run, size_t n)
{
    unsigned seed = last * 8 + (unsigned)run;
    size_t kept = last >= 1 && last <= 7 && run >= last ? n - last : n, room;
    uint8_t payload[MOST], sealed[255];
    struct call c;

    memcpy(payload, sample(seed, n).at, n);
    memset(payload + n - run, (int)last, run);
    if (run < n) {
        payload[n - run - 1] = (uint8_t)(last ^ 0x5A);
    }
    check(trimmed_size(text_of(payload, n)) == kept, "the test's own rule");
    c = trimming_of(seed, text_of(payload, n), sealed);
    for (room = 0; room <= n + 1; room++) {
        answers(&c, room, (unsigned)room + seed, room < kept ? FELICA_OUTPUT_TOO_SMALL : (uint64_t)c.number << 32 | (uint64_t)kept << 16,
                payload);
    }
}

void trims(void)
{
    static const size_t sizes[] = {8, 16, MOST};
    uint8_t payload[MOST];
    unsigned last;
    size_t n, i, run;

    part("trimmed openings");
    for (n = 0; n <= MOST; n++) {
        trim((unsigned)n, sample((unsigned)n + 800, n));
    }
    for (i = 0; i < sizeof sizes / sizeof sizes[0]; i++) {
        for (last = 0; last < 256; last++) {
            for (run = 1; run <= 8; run++) {
                run_of(last, run, sizes[i]);
            }
        }
    }
    // padding that is itself behind what looks like padding
    memset(payload, 3, sizeof payload);
    for (n = 0; n <= 40; n++) {
        trim((unsigned)n, text_of(payload, n));
    }
}
