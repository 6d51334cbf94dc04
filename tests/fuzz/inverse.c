#include "shot.h"

#include "../c/check.h"
#include "../c/layout.h"

#include "../../include/felica_secure.h"

#include <string.h>

#define B(which) s->in[IN_##which].at, s->in[IN_##which].n
#define CHALLENGE s->scheme, B(KEYS), B(ID)

static uint8_t back[OUTPUT_MAX];
#define BACK back, sizeof back

// The answer and its bytes.
static void gives(uint64_t answer, unsigned number, const uint8_t *bytes, size_t n)
{
    check(answer == ((uint64_t)number << 32 | (uint64_t)n << 16), "the inverse answers another");
    check(n == 0 || memcmp(back, bytes, n) == 0, "the inverse gives other bytes");
}

static void challenge_inverse(const struct shot *s, const struct result *r)
{
    size_t n = felica_answer_length(r->answer);

    switch (s->op) {
    case MAKE_1A:
        gives(felica_decrypt_challenge1a(CHALLENGE, r->out, n, BACK), 0, B(DATA));
        break;
    case READ_1A:
        gives(felica_encrypt_challenge1a(CHALLENGE, r->out, n, BACK), 0, B(DATA));
        break;
    case MAKE_1B:
        check(felica_verify_challenge1b(CHALLENGE, B(THIRD), B(DATA), r->out, n) == 0, "1B is not accepted");
        break;
    case CHECK_1B:
        gives(felica_encrypt_challenge1b(CHALLENGE, B(THIRD), B(DATA), BACK), 0, B(CHECKED));
        break;
    case MAKE_2A:
        gives(felica_decrypt_challenge2a(CHALLENGE, B(THIRD), r->out, n, BACK), 0, B(DATA));
        break;
    case READ_2A:
        gives(felica_encrypt_challenge2a(CHALLENGE, B(THIRD), r->out, n, BACK), 0, B(DATA));
        break;
    case MAKE_2B:
        check(felica_verify_challenge2b(CHALLENGE, B(DATA), r->out, n) == 0, "2B is not accepted");
        break;
    case CHECK_2B:
        gives(felica_encrypt_challenge2b(CHALLENGE, B(DATA), BACK), 0, B(CHECKED));
        break;
    default:
        break;
    }
}

static void opens_back(const struct shot *s, const uint8_t *data, size_t n)
{
    uint8_t wanted[INPUT_MAX + 8];
    size_t size = as_opened(s->scheme, text_of(B(DATA)), wanted);
    uint64_t forecast = felica_forecast(s->scheme, s->in[IN_DATA].n);

    gives(felica_decrypt_response(s->scheme, s->code, B(ID), B(KEYS), data, n, BACK), s->number, wanted, size);
    check(forecast == (uint64_t)n << 16, "the forecast is not the size as sealed");
}

static void seals_back(const struct shot *s, unsigned scheme, unsigned code, const struct result *r)
{
    uint64_t answer = felica_encrypt_command((uint8_t)scheme, (uint8_t)code, felica_answer_transaction_number(r->answer), B(ID), B(KEYS),
                                             r->out, felica_answer_length(r->answer), BACK);

    gives(answer, 0, B(DATA));
}

// The trimmed payload is the payload without its padding.
static void trims(const struct shot *s, const struct result *r)
{
    uint64_t whole = felica_decrypt_response(FELICA_SCHEME_DES, s->code, B(ID), B(KEYS), B(DATA), BACK);
    size_t n = trimmed_size(text_of(back, felica_answer_length(whole)));

    check(felica_answer_number(whole) == 0, "the untrimmed opening is refused");
    gives((uint64_t)felica_answer_transaction_number(whole) << 32 | (uint64_t)n << 16, felica_answer_transaction_number(r->answer), r->out,
          felica_answer_length(r->answer));
}

// The payload's length comes back from the size as it was written, the padding (which pass.c has held to its rule), and what stands around both.
static void counts_back(const struct shot *s, const struct result *r)
{
    size_t around = around_of(s->op, mark_of(s->op, s->scheme, text_of(B(SESSION))));

    check(felica_answer_length(r->answer) - around - felica_answer_padding(r->answer) == s->in[IN_DATA].n,
          "the payload's length does not come back from the size");
}

static void sealed_inverse(const struct shot *s, const struct result *r)
{
    size_t n = felica_answer_length(r->answer);
    uint8_t wanted[INPUT_MAX + 8];

    switch (s->op) {
    case SEAL:
        opens_back(s, r->out, n);
        break;
    case FRAME:
        check(r->out[0] == n && r->out[1] == s->code, "the front of the frame is wrong");
        opens_back(s, r->out + 2, n - 2);
        break;
    case OPEN:
        seals_back(s, s->scheme, s->code, r);
        break;
    case AUTH2_OPEN_AES:
        seals_back(s, FELICA_SCHEME_AES128, 0x43, r);
        break;
    case TRIMMED:
        trims(s, r);
        break;
    case AUTH2_SEAL:
        if (s->in[IN_DATA].n != 0) {
            size_t size = as_opened(FELICA_SCHEME_DES, text_of(B(DATA)), wanted);

            gives(felica_decrypt_authentication2_payload_des(B(KEYS), r->out, n, BACK), 0, wanted, size);
        }
        break;
    case AUTH2_OPEN_DES:
        gives(felica_encrypt_authentication2_payload_des(B(KEYS), r->out, n, BACK), 0, B(DATA));
        break;
    default:
        break;
    }
}

void inverse(const struct shot *s, const struct result *r)
{
    if (s->op == SEARCH) {
        check(r->answer == search_answer(text_of(B(KEYS)), s->number, s->scheme), "a search answers another than its rule");
    }
    if (felica_answer_number(r->answer) != 0) {
        return;
    }
    challenge_inverse(s, r);
    if (has_trait(s->op, PADS)) {
        counts_back(s, r);
    }
    sealed_inverse(s, r);
    session_inverse(s, r);
}
