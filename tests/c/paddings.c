#include "parts.h"

#include "call.h"
#include "check.h"
#include "layout.h"

#include "../../include/felica_secure.h"

// The examples, then the rule for every length. A refusal has no padding: refuses_in compares the whole answer.

static const uint8_t des_session[FELICA_SESSION_SIZE] = {FELICA_SESSION_VERSION, FELICA_SCHEME_DES};
static const uint8_t aes_session[FELICA_SESSION_SIZE] = {FELICA_SESSION_VERSION, FELICA_SCHEME_AES128};

static const enum operation sealings[] = {SEAL, FRAME, SEAL_IN, AUTH2_SEAL};

static struct call sealing_call(enum operation operation, unsigned scheme, size_t n)
{
    struct call c = call_of(operation, scheme, (unsigned)n, sample((unsigned)n + 77, n));

    if (operation == SEAL_IN) {
        c.session = text_of(scheme == FELICA_SCHEME_DES ? des_session : aes_session, sizeof des_session);
    }
    return c;
}

// A payload of n bytes is sealed with this padding, and its length is the size less padding and what stands around; or, with 12 in the place
// of a padding, it is too long. With one byte of output less it is turned down with 16.
static void tells_padding(enum operation operation, unsigned scheme, size_t n, unsigned padding)
{
    struct call c = sealing_call(operation, scheme, n);
    size_t size = n + padding + around_of(operation, scheme);

    if (padding == FELICA_TOO_LONG) {
        refuses_in(&c, 300, FELICA_TOO_LONG);
        return;
    }
    check(padding_bits(&c) == (uint64_t)padding << 48, "the padding as the test has it");
    gives(&c, 0, size, NULL, NULL);
    refuses_in(&c, size - 1, FELICA_OUTPUT_TOO_SMALL);
}

static void examples(void)
{
    static const struct {
        size_t n;
        unsigned des, authentication2, aes;
    } rows[] = {
        {0, 0, 0, 0}, {1, 7, 7, 0}, {7, 1, 1, 0}, {8, 0, 0, 0}, {225, 7, 7, 0}, {231, 1, 1, 0}, {232, 0, 0, 0}, {233, 12, 7, 0}, {239, 12, 1, 0},
        {240, 12, 0, 0}, {241, 12, 12, 0}, {243, 12, 12, 0}, {244, 12, 12, 12},
    };
    size_t i, j;

    for (i = 0; i < sizeof rows / sizeof rows[0]; i++) {
        for (j = 0; j < 3; j++) {
            tells_padding(sealings[j], FELICA_SCHEME_DES, rows[i].n, rows[i].des);
            tells_padding(sealings[j], FELICA_SCHEME_AES128, rows[i].n, rows[i].aes);
        }
        tells_padding(AUTH2_SEAL, FELICA_SCHEME_DES, rows[i].n, rows[i].authentication2);
    }
}

// Counted up to the next whole block.
static unsigned missing_from(size_t n)
{
    unsigned added = 0;

    while ((n + added) % 8 != 0) {
        added++;
    }
    return added;
}

static void sealed_with(size_t n)
{
    unsigned added = missing_from(n);
    size_t i;

    for (i = 0; i < 3; i++) {
        tells_padding(sealings[i], FELICA_SCHEME_DES, n, n > 232 ? FELICA_TOO_LONG : added);
        tells_padding(sealings[i], FELICA_SCHEME_AES128, n, n > 243 ? FELICA_TOO_LONG : 0);
    }
    tells_padding(AUTH2_SEAL, FELICA_SCHEME_DES, n, n + added > 240 ? FELICA_TOO_LONG : added);
}

// An opening and a forecast tell no padding.
static void opened_without(size_t n)
{
    uint8_t sealed[255], back[255];
    struct call c = sealing_call(SEAL, FELICA_SCHEME_DES, n), opening = c;
    uint64_t answer = felica_encrypt_command(c.scheme, c.code, c.number, c.id.at, c.id.n, c.credentials.at, c.credentials.n, c.data.at, n, sealed,
                                             sizeof sealed);

    opening.operation = OPEN;
    opening.data = text_of(sealed, felica_answer_length(answer));
    answers(&opening, 255, (unsigned)n, (uint64_t)c.number << 32 | (uint64_t)as_opened(FELICA_SCHEME_DES, c.data, back) << 16, back);
    check(felica_answer_padding(felica_forecast(FELICA_SCHEME_DES, n)) == 0, "a forecast with a padding");
}

void paddings(void)
{
    size_t n;

    part("paddings");
    examples();
    for (n = 0; n <= 300; n++) {
        sealed_with(n);
    }
    for (n = 0; n <= 232; n++) {
        opened_without(n);
    }
}
