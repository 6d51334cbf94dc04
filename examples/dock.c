// A dock (the reader) and a staff card in one program, in both schemes: derivation, authentication, a session with its commands and
// responses, refusals, the end of the session; then a session with a ceiling. Each line that it prints says what one end did. It checks all
// that it expects, and ends with status 1 where something is otherwise; in a dock a refusal ends the exchange with the card, not the program.
//
// C99, and C++11. Keys, nodes and IDm are made up. Random 1, random 2 and Challenge 3C are fixed here, so that each run prints the same: in
// earnest they are drawn anew for each authentication, from a random generator that is fit for keys.
#include "felica_secure.h"

#include <stdio.h>
#include <stdlib.h>
#include <string.h>

// ---- answers

// What the numbers mean (docs/NUMBERS.md).
static const char *const meanings[] = {
    "accepted",
    "too many keys, areas, services or session nodes",
    "the same node and algorithm twice in the keys",
    "no area and no service",
    "a needed node has no key",
    "a node has a key of the other algorithm only",
    "an individual key with DES",
    "DES without an area",
    "DES without a service that bears a key",
    "the transaction number is at or above the ceiling",
    "not whole blocks of 8 bytes, or an empty package",
    "too short",
    "too long",
    "the MAC, or the challenge that is checked, differs",
    "the transaction ID differs",
    "the number is not above the session's",
    "the output is too small",
    "an unknown mark, or a wrong fixed length",
};

static const char *meaning(unsigned number)
{
    return number < sizeof meanings / sizeof meanings[0] ? meanings[number] : "a number that the library does not give";
}

static void expect(int holds, const char *what)
{
    if (!holds) {
        fflush(stdout);
        fprintf(stderr, "dock: not so: %s\n", what);
        exit(1);
    }
}

static void expect_number(const char *call, uint64_t answer, unsigned number)
{
    unsigned got = felica_answer_number(answer);

    if (got != number) {
        fflush(stdout);
        fprintf(stderr, "dock: %s: %u (%s) where %u (%s) is expected\n", call, got, meaning(got), number, meaning(number));
        exit(1);
    }
}

// The answer of a call that has to be accepted.
static uint64_t accepted(const char *call, uint64_t answer)
{
    expect_number(call, answer, FELICA_OK);
    return answer;
}

// A call that has to be turned down with this number.
static void refused(const char *who, const char *call, uint64_t answer, unsigned number)
{
    expect_number(call, answer, number);
    printf("  %-7s %s: refused with %u, %s\n", who, call, number, meaning(number));
}

// A name, and bytes in hexadecimal, 32 to a line.
static void show(const char *who, const char *what, const uint8_t *bytes, size_t n)
{
    size_t i;

    printf("  %-7s %-10s", who, what);
    for (i = 0; i < n; i++) {
        if (i > 0 && i % 32 == 0) {
            printf("\n%20s", "");
        }
        printf("%02x", bytes[i]);
    }
    printf("\n");
}

// Overwrites secrets. The library keeps nothing, so there is no call that closes a session: the caller overwrites what it kept. A compiler
// may leave out a memset whose zeros nobody reads; it may not leave out a write through a volatile pointer.
static void wipe(void *at, size_t n)
{
    volatile uint8_t *bytes = (volatile uint8_t *)at;

    while (n > 0) {
        n--;
        bytes[n] = 0;
    }
}

// ---- the hospital's keys, and what a card is about

#define NODE(n) (n) & 0xFF, (n) >> 8
// DES uses the first 8 bytes of a key.
#define UNUSED 0, 0, 0, 0, 0, 0, 0, 0

// Entries of FELICA_KEY_ENTRY_SIZE bytes: node, algorithm, key.
static const uint8_t hospital_keys[] = {
    NODE(FELICA_NODE_SYSTEM), FELICA_ALGORITHM_DES, 0x53, 0x79, 0x73, 0x74, 0x65, 0x6D, 0x20, 0x31, UNUSED,
    NODE(0x0000), FELICA_ALGORITHM_DES, 0x0B, 0x16, 0x2C, 0x58, 0xB0, 0x61, 0xC2, 0x85, UNUSED,
    NODE(0x1000), FELICA_ALGORITHM_DES, 0x3D, 0x7A, 0xF4, 0xE9, 0xD3, 0xA7, 0x4F, 0x9E, UNUSED,
    NODE(0x1008), FELICA_ALGORITHM_DES, 0x91, 0x23, 0x46, 0x8C, 0x19, 0x32, 0x64, 0xC8, UNUSED,
    NODE(0x0000), FELICA_ALGORITHM_AES128, 0xA0, 0x41, 0x83, 0x07, 0x0E, 0x1C, 0x38, 0x70,
    0xE1, 0xC3, 0x86, 0x0D, 0x1B, 0x36, 0x6C, 0xD8,
    NODE(0x2000), FELICA_ALGORITHM_AES128, 0x77, 0xEE, 0xDD, 0xBB, 0x76, 0xEC, 0xD9, 0xB3,
    0x67, 0xCE, 0x9D, 0x3A, 0x75, 0xEA, 0xD5, 0xAB,
    NODE(0x2008), FELICA_ALGORITHM_AES128, 0x52, 0xA4, 0x49, 0x92, 0x25, 0x4A, 0x94, 0x29,
    0x5F, 0xBE, 0x7D, 0xFA, 0xF5, 0xEB, 0xD7, 0xAF,
    NODE(0x2048), FELICA_ALGORITHM_AES128, 0xC6, 0x8D, 0x1A, 0x35, 0x6A, 0xD4, 0xA9, 0x53,
    0xA6, 0x4D, 0x9A, 0x34, 0x69, 0xD2, 0xA5, 0x4B,
};

// What an authentication is about. Both ends know it: the reader asks the card for it in the clear.
struct profile {
    const char *name;
    uint8_t scheme;
    uint8_t idm[FELICA_IDM_SIZE];
    uint8_t areas[2 * FELICA_NODE_SIZE];
    uint8_t services[2 * FELICA_NODE_SIZE];
    // the service whose blocks hold dose limits: the second
    uint16_t dose_limits;
    // an individual key is AES's: with DES it has 0 bytes
    uint8_t individual[FELICA_INDIVIDUAL_KEY_SIZE];
    size_t individual_len;
    // codes of the command Write and of its response
    uint8_t write;
    uint8_t written;
};

static const struct profile aes_card = {
    "AES-128",
    FELICA_SCHEME_AES128,
    {0x01, 0x2E, 0x4C, 0xD1, 0x08, 0x15, 0x23, 0x42},
    {NODE(0x0000), NODE(0x2000)},
    {NODE(0x2048), NODE(0x2008)},
    0x2008,
    {0x1D, 0x3B, 0x76, 0xED, 0xDA, 0xB5, 0x6B, 0xD6, 0xAD, 0x5A, 0xB4, 0x68, 0xD1, 0xA3, 0x47, 0x8F},
    FELICA_INDIVIDUAL_KEY_SIZE,
    0x46,
    0x47,
};

// Service 0x100B is key-free: DES passes over it.
static const struct profile des_card = {
    "DES",
    FELICA_SCHEME_DES,
    {0x01, 0x2E, 0x3A, 0x90, 0x16, 0x07, 0x31, 0x55},
    {NODE(0x0000), NODE(0x1000)},
    {NODE(0x100B), NODE(0x1008)},
    0x1008,
    {0},
    0,
    0x16,
    0x17,
};

static const uint8_t fixed_random_1[FELICA_AES_BLOCK_SIZE] = {0x8E, 0x24, 0xF0, 0x3B, 0x5C, 0xD7, 0x61, 0x9A,
                                                             0x12, 0xE8, 0x4F, 0xB6, 0x70, 0x2D, 0xC5, 0x39};
static const uint8_t fixed_random_2[FELICA_AES_BLOCK_SIZE] = {0x3F, 0xA1, 0x58, 0xC4, 0x0D, 0x92, 0x7E, 0xE6,
                                                             0xB3, 0x1C, 0x65, 0xD8, 0x2A, 0xF7, 0x49, 0x80};
static const uint8_t fixed_challenge_3c[FELICA_CHALLENGE_3C_SIZE] = {0x6D, 0x02, 0xB9, 0x57};

// ---- both ends

// Derived keys, with the scheme that they are for and the size of its blocks.
struct derived {
    uint8_t scheme;
    size_t block_len;
    size_t keys_len;
    uint8_t keys[FELICA_AES_DERIVED_KEYS_SIZE];
};

struct reader {
    uint8_t idm[FELICA_IDM_SIZE];
    struct derived derived;
    uint8_t random_1[FELICA_AES_BLOCK_SIZE];
    // read from 2A
    uint8_t random_2[FELICA_AES_BLOCK_SIZE];
    uint8_t session[FELICA_SESSION_SIZE];
};

struct card {
    uint8_t idm[FELICA_IDM_SIZE];
    struct derived derived;
    // read from 1A
    uint8_t random_1[FELICA_AES_BLOCK_SIZE];
    uint8_t random_2[FELICA_AES_BLOCK_SIZE];
    uint8_t challenge_3c[FELICA_CHALLENGE_3C_SIZE];
    uint8_t credentials[FELICA_AES_CREDENTIALS_SIZE];
    size_t credentials_len;
    // the last number that it took or gave
    uint16_t number;
};

// The card's answer to 1A.
struct authentication1 {
    uint8_t challenge_1b[FELICA_AES_BLOCK_SIZE];
    uint8_t challenge_2a[FELICA_AES_BLOCK_SIZE];
    uint8_t challenge_3c[FELICA_CHALLENGE_3C_SIZE];
};

// Over the air goes a length byte that counts itself, a code, and sealed data.
struct frame {
    uint8_t bytes[FELICA_FRAME_MAX];
    size_t len;
};

// ---- derivation

// The reader lets the keys choose the scheme (mark 0). The card has one scheme, and forces it by its mark.
static void derive(const char *who, struct derived *d, uint8_t mark, const struct profile *p)
{
    uint64_t answer = accepted("derivation", felica_derive_auth_keys(mark, hospital_keys, sizeof hospital_keys,
                                                                     p->areas, sizeof p->areas,
                                                                     p->services, sizeof p->services,
                                                                     p->individual, p->individual_len,
                                                                     d->keys, sizeof d->keys));

    d->scheme = felica_answer_scheme(answer);
    d->keys_len = felica_answer_length(answer);
    d->block_len = d->scheme == FELICA_SCHEME_DES ? FELICA_DES_BLOCK_SIZE : FELICA_AES_BLOCK_SIZE;
    expect(d->scheme == p->scheme, "the scheme is the card's");
    printf("  %-7s mark %u: keys of scheme %u, %u bytes\n", who, (unsigned)mark, (unsigned)d->scheme, (unsigned)d->keys_len);
}

// ---- authentication: each end shows that it has the keys

static void reader_makes_1a(struct reader *r, uint8_t *challenge_1a)
{
    const struct derived *d = &r->derived;

    memcpy(r->random_1, fixed_random_1, d->block_len);
    accepted("making 1A", felica_encrypt_challenge1a(d->scheme, d->keys, d->keys_len, r->idm, sizeof r->idm,
                                                     r->random_1, d->block_len, challenge_1a, d->block_len));
    show("reader", "1A", challenge_1a, d->block_len);
}

// The card reads random 1 and gives it back as 1B, with a challenge of its own. DES does not use 3C.
static void card_answers_1a(struct card *c, const uint8_t *challenge_1a, struct authentication1 *a)
{
    const struct derived *d = &c->derived;

    memcpy(c->random_2, fixed_random_2, d->block_len);
    memcpy(c->challenge_3c, fixed_challenge_3c, sizeof c->challenge_3c);
    memcpy(a->challenge_3c, c->challenge_3c, sizeof c->challenge_3c);
    accepted("reading 1A", felica_decrypt_challenge1a(d->scheme, d->keys, d->keys_len, c->idm, sizeof c->idm,
                                                      challenge_1a, d->block_len, c->random_1, d->block_len));
    accepted("making 1B", felica_encrypt_challenge1b(d->scheme, d->keys, d->keys_len, c->idm, sizeof c->idm,
                                                     c->challenge_3c, sizeof c->challenge_3c,
                                                     c->random_1, d->block_len, a->challenge_1b, d->block_len));
    accepted("making 2A", felica_encrypt_challenge2a(d->scheme, d->keys, d->keys_len, c->idm, sizeof c->idm,
                                                     c->challenge_3c, sizeof c->challenge_3c,
                                                     c->random_2, d->block_len, a->challenge_2a, d->block_len));
    show("card", "1B", a->challenge_1b, d->block_len);
    show("card", "2A", a->challenge_2a, d->block_len);
    if (d->scheme == FELICA_SCHEME_AES128) {
        show("card", "3C", a->challenge_3c, sizeof a->challenge_3c);
    }
}

// The reader checks 1B, reads random 2 and gives it back as 2B. A card whose 1B differs gets no answer.
static void reader_answers_2a(struct reader *r, const struct authentication1 *a, uint8_t *challenge_2b)
{
    const struct derived *d = &r->derived;

    accepted("checking 1B", felica_verify_challenge1b(d->scheme, d->keys, d->keys_len, r->idm, sizeof r->idm,
                                                      a->challenge_3c, sizeof a->challenge_3c,
                                                      r->random_1, d->block_len, a->challenge_1b, d->block_len));
    printf("  reader  1B accepted: the card has the keys\n");
    accepted("reading 2A", felica_decrypt_challenge2a(d->scheme, d->keys, d->keys_len, r->idm, sizeof r->idm,
                                                      a->challenge_3c, sizeof a->challenge_3c,
                                                      a->challenge_2a, d->block_len, r->random_2, d->block_len));
    accepted("making 2B", felica_encrypt_challenge2b(d->scheme, d->keys, d->keys_len, r->idm, sizeof r->idm,
                                                     r->random_2, d->block_len, challenge_2b, d->block_len));
    show("reader", "2B", challenge_2b, d->block_len);
}

static void card_checks_2b(const struct card *c, const uint8_t *challenge_2b)
{
    const struct derived *d = &c->derived;

    accepted("checking 2B", felica_verify_challenge2b(d->scheme, d->keys, d->keys_len, c->idm, sizeof c->idm,
                                                      c->random_2, d->block_len, challenge_2b, d->block_len));
    printf("  card    2B accepted: the reader has the keys\n");
}

// ---- the session

// The transaction ID is the caller's to agree on: here bytes 2 to 7 of random 1, as with felica-rs's emulated DES card.
static const uint8_t *transaction_id(const uint8_t *random_1)
{
    return random_1 + 2;
}

// Writes the credentials of sealed data, and gives their size. AES: the session keys of random 2, and Challenge 3C behind them. DES: the
// session key is the caller's to agree on, too; here it is random 2, as with that card.
static size_t credentials_of(uint8_t scheme, const uint8_t *random_2, const uint8_t *challenge_3c, uint8_t *credentials)
{
    if (scheme == FELICA_SCHEME_DES) {
        memcpy(credentials, random_2, FELICA_DES_KEY_SIZE);
        return FELICA_DES_KEY_SIZE;
    }
    accepted("session keys", felica_derive_secure_session_keys(random_2, FELICA_AES_BLOCK_SIZE,
                                                               credentials, FELICA_AES_SESSION_KEYS_SIZE));
    memcpy(credentials + FELICA_AES_SESSION_KEYS_SIZE, challenge_3c, FELICA_CHALLENGE_3C_SIZE);
    return FELICA_AES_CREDENTIALS_SIZE;
}

static uint16_t number_of(const struct reader *r)
{
    return felica_answer_transaction_number(accepted("number", felica_session_transaction_number(r->session, sizeof r->session)));
}

static unsigned turned_away(const struct reader *r)
{
    return felica_answer_count(accepted("count", felica_session_turned_away(r->session, sizeof r->session)));
}

// The reader's session: number 0, and the services in the order of the authentication. What it was made of is no longer needed.
static void reader_opens(struct reader *r, const struct profile *p, const uint8_t *challenge_3c)
{
    uint8_t credentials[FELICA_AES_CREDENTIALS_SIZE];
    size_t credentials_len = credentials_of(r->derived.scheme, r->random_2, challenge_3c, credentials);

    accepted("making the session", felica_session_new(r->derived.scheme, 0, transaction_id(r->random_1), FELICA_ID_SIZE,
                                                      credentials, credentials_len, p->services, sizeof p->services,
                                                      r->session, sizeof r->session));
    wipe(credentials, sizeof credentials);
    wipe(&r->derived, sizeof r->derived);
    wipe(r->random_1, sizeof r->random_1);
    wipe(r->random_2, sizeof r->random_2);
    expect(number_of(r) == 0 && turned_away(r) == 0, "a session starts at its number, and with nothing turned away");
    printf("  reader  session made, number %u\n", (unsigned)number_of(r));
}

static void card_opens(struct card *c)
{
    c->credentials_len = credentials_of(c->derived.scheme, c->random_2, c->challenge_3c, c->credentials);
    c->number = 0;
    printf("  card    ready, number 0\n");
}

// ---- commands and responses

// A dose limit fills one block of a service.
#define LIMIT_SIZE 16
// A Write of one block: how many blocks, which service and block, the block.
#define WRITE_SIZE (3 + LIMIT_SIZE)
// Its response: two status bytes, both 0 where the block was written.
#define STATUS_SIZE 2

// A block names its service by the place that it has in the session's list.
static void write_payload(const struct reader *r, const struct profile *p, const char *limit, uint8_t *payload)
{
    uint64_t answer = accepted("place", felica_session_node_index(r->session, sizeof r->session, p->dose_limits));

    expect(felica_answer_index(answer) == 1, "the service has the second place");
    payload[0] = 1;
    payload[1] = (uint8_t)(0x80 | felica_answer_index(answer));
    payload[2] = 0;
    memcpy(payload + 3, limit, LIMIT_SIZE);
}

// A log line. The payload's length comes back from the size of the frame, the padding, and what stands around them: length byte, code, and what
// sealing adds.
static void log_frame(const char *who, uint8_t scheme, const struct frame *f, uint64_t answer, size_t payload_len)
{
    unsigned size = (unsigned)f->len, padding = felica_answer_padding(answer);
    unsigned payload = size - (scheme == FELICA_SCHEME_DES ? 18 : 12) - padding;

    printf("  %-7s %-10s%u bytes, padding %u: %u of payload\n", who, "frame", size, padding, payload);
    expect(payload == payload_len, "the payload's length, from size and padding");
}

// Two calls: the number steps, then the payload is sealed with it. The forecast comes first, since a payload that is too long would cost
// the number.
static void reader_sends(struct reader *r, uint8_t code, const uint8_t *payload, size_t payload_len, struct frame *f)
{
    uint8_t scheme = felica_answer_scheme(accepted("scheme", felica_session_scheme(r->session, sizeof r->session)));
    size_t size = felica_answer_length(accepted("forecast", felica_forecast(scheme, payload_len)));
    uint64_t answer;

    answer = accepted("number step", felica_session_increment_transaction_number(r->session, sizeof r->session));
    printf("  reader  number %u\n", (unsigned)felica_answer_transaction_number(answer));
    answer = accepted("sealing", felica_session_encrypt_command(r->session, sizeof r->session, code, payload, payload_len,
                                                                f->bytes + 2, sizeof f->bytes - 2));
    expect(felica_answer_length(answer) == size, "sealed data as long as forecast");
    f->len = 2 + (size_t)felica_answer_length(answer);
    f->bytes[0] = (uint8_t)f->len;
    f->bytes[1] = code;
    show("reader", "command", f->bytes, f->len);
    log_frame("reader", scheme, f, answer, payload_len);
}

// What either end does with a frame before it opens the data that follows.
static int is_frame(const struct frame *f, uint8_t code)
{
    return f->len >= 2 && f->bytes[0] == f->len && f->bytes[1] == code;
}

// An opening compares no numbers; the card does: a command has to be above its last number, and leave one for the response. With DES the
// payload comes back with its padding, so what it says tells how long it is.
static void card_takes(struct card *c, uint8_t code, const struct frame *f, uint8_t *limit)
{
    uint8_t payload[FELICA_SEALED_MAX];
    uint64_t answer;
    uint16_t number;

    expect(is_frame(f, code), "a frame of the command's code");
    answer = accepted("opening", felica_decrypt_response(c->derived.scheme, code, transaction_id(c->random_1), FELICA_ID_SIZE,
                                                         c->credentials, c->credentials_len, f->bytes + 2, f->len - 2,
                                                         payload, sizeof payload));
    number = felica_answer_transaction_number(answer);
    expect(number > c->number && number < 0xFFFF, "a command's number above the card's");
    expect(felica_answer_length(answer) >= WRITE_SIZE && payload[0] == 1, "a Write of one block");
    c->number = number;
    memcpy(limit, payload + 3, LIMIT_SIZE);
    printf("  card    number %u, stores: %.*s\n", (unsigned)number, LIMIT_SIZE, (const char *)limit);
}

// A response has the command's number and one.
static void card_answers(struct card *c, uint8_t code, struct frame *f)
{
    const uint8_t status[STATUS_SIZE] = {0, 0};
    uint64_t answer;

    c->number++;
    answer = accepted("response", felica_build_secure_response_frame(c->derived.scheme, code, c->number,
                                                                     transaction_id(c->random_1), FELICA_ID_SIZE,
                                                                     c->credentials, c->credentials_len,
                                                                     status, sizeof status, f->bytes, sizeof f->bytes));
    f->len = felica_answer_length(answer);
    printf("  card    number %u\n", (unsigned)c->number);
    show("card", "response", f->bytes, f->len);
    log_frame("card", c->derived.scheme, f, answer, sizeof status);
}

// The response step: it opens the data, requires a number above the session's, and takes it over.
static uint64_t reader_takes(struct reader *r, uint8_t code, const struct frame *f, uint8_t *out, size_t out_len)
{
    expect(is_frame(f, code), "a frame of the response's code");
    return felica_session_apply_response(r->session, sizeof r->session, code, f->bytes + 2, f->len - 2, out, out_len);
}

static void reader_accepts(struct reader *r, uint8_t code, const struct frame *f)
{
    uint8_t payload[FELICA_SEALED_MAX];
    uint64_t answer = accepted("taking a response", reader_takes(r, code, f, payload, sizeof payload));

    expect(felica_answer_transaction_number(answer) == number_of(r), "the response's number is the session's");
    expect(felica_answer_length(answer) >= STATUS_SIZE && payload[0] == 0 && payload[1] == 0, "the block was written");
    printf("  reader  number %u, the block is written\n", (unsigned)number_of(r));
    show("reader", "payload", payload, felica_answer_length(answer));
}

// The reader writes a dose limit, the card stores it and answers. The response is not taken yet.
static void write_limit(struct reader *r, struct card *c, const struct profile *p, const char *limit, struct frame *response)
{
    uint8_t payload[WRITE_SIZE], stored[LIMIT_SIZE];
    struct frame command;

    write_payload(r, p, limit, payload);
    printf("  reader  writes: %s\n", limit);
    reader_sends(r, p->write, payload, sizeof payload, &command);
    card_takes(c, p->write, &command, stored);
    expect(memcmp(stored, limit, LIMIT_SIZE) == 0, "the card has the limit that was sent");
    card_answers(c, p->written, response);
}

// ---- what is turned down

// A response that has to be refused, and counted; the number stays as it was.
static void turns_away(struct reader *r, const char *call, uint8_t code, const struct frame *f, unsigned refusal)
{
    uint8_t payload[FELICA_SEALED_MAX];
    uint16_t number = number_of(r);
    unsigned count = turned_away(r);

    refused("reader", call, reader_takes(r, code, f, payload, sizeof payload), refusal);
    expect(number_of(r) == number, "the number stays");
    expect(turned_away(r) == count + 1, "the count goes up");
    printf("  reader  turned away: %u\n", turned_away(r));
}

// After a damaged response the right one can still be taken.
static void damaged_response(struct reader *r, struct card *c, const struct profile *p)
{
    struct frame response;

    printf(" a response that is damaged on its way\n");
    write_limit(r, c, p, "ward 4 08.0 ml/h", &response);
    response.bytes[9] ^= 0x40;
    turns_away(r, "damaged", p->written, &response, FELICA_MAC_DIFFERS);
    response.bytes[9] ^= 0x40;
    reader_accepts(r, p->written, &response);
}

// The response is right, the room for it is not: no byte of it is written, nothing is counted, and it can be taken again.
static void small_output(struct reader *r, struct card *c, const struct profile *p)
{
    uint8_t small[1] = {0xEE}, before[FELICA_SESSION_SIZE];
    struct frame response;

    printf(" an output that is too small\n");
    write_limit(r, c, p, "ward 5 20.0 ml/h", &response);
    memcpy(before, r->session, sizeof before);
    refused("reader", "1 byte of room", reader_takes(r, p->written, &response, small, sizeof small), FELICA_OUTPUT_TOO_SMALL);
    expect(small[0] == 0xEE && memcmp(before, r->session, sizeof before) == 0, "output and session are as they were");
    wipe(before, sizeof before);
    reader_accepts(r, p->written, &response);
}

// No number is used twice: after 0xFFFF, which is the ceiling of this session, the reader has to authenticate anew.
static void last_number(struct reader *r)
{
    uint8_t before[FELICA_SESSION_SIZE];

    printf(" the last number\n");
    accepted("setting the number", felica_session_set_transaction_number(r->session, sizeof r->session, 0xFFFF));
    memcpy(before, r->session, sizeof before);
    refused("reader", "number step", felica_session_increment_transaction_number(r->session, sizeof r->session),
            FELICA_NUMBER_EXHAUSTED);
    expect(memcmp(before, r->session, sizeof before) == 0, "the session is as it was");
    wipe(before, sizeof before);
}

// Both ends forget their keys. What is left of the session is no session.
static void close_both(struct reader *r, struct card *c)
{
    printf(" the end\n");
    wipe(r, sizeof *r);
    wipe(c, sizeof *c);
    printf("  reader  session and keys overwritten\n");
    printf("  card    keys overwritten\n");
    refused("reader", "a call with what is left", felica_session_transaction_number(r->session, sizeof r->session),
            FELICA_BAD_MARK_OR_LENGTH);
}

// ---- the whole

static void authenticate(struct reader *r, struct card *c, const struct profile *p)
{
    uint8_t challenge_1a[FELICA_AES_BLOCK_SIZE], challenge_2b[FELICA_AES_BLOCK_SIZE];
    struct authentication1 answer;

    printf(" derivation\n");
    derive("reader", &r->derived, FELICA_SCHEME_BY_KEYS, p);
    derive("card", &c->derived, p->scheme, p);
    expect(memcmp(r->derived.keys, c->derived.keys, r->derived.keys_len) == 0, "both ends have the same keys");
    printf(" authentication\n");
    reader_makes_1a(r, challenge_1a);
    card_answers_1a(c, challenge_1a, &answer);
    reader_answers_2a(r, &answer, challenge_2b);
    card_checks_2b(c, challenge_2b);
    printf(" session\n");
    reader_opens(r, p, answer.challenge_3c);
    card_opens(c);
}

static void play(const struct profile *p)
{
    struct reader r;
    struct card c;
    struct frame first;

    memset(&r, 0, sizeof r);
    memset(&c, 0, sizeof c);
    memcpy(r.idm, p->idm, sizeof r.idm);
    memcpy(c.idm, p->idm, sizeof c.idm);
    printf("%s card\n", p->name);
    authenticate(&r, &c, p);
    printf(" a dose limit is released\n");
    write_limit(&r, &c, p, "ward 3 12.5 ml/h", &first);
    reader_accepts(&r, p->written, &first);
    printf(" a response that comes a second time\n");
    turns_away(&r, "the same again", p->written, &first, FELICA_NUMBER_NOT_ABOVE);
    damaged_response(&r, &c, p);
    printf(" a response that is old\n");
    turns_away(&r, "the first one", p->written, &first, FELICA_NUMBER_NOT_ABOVE);
    small_output(&r, &c, p);
    last_number(&r);
    close_both(&r, &c);
}

// A mark that is none, and a card with a service whose key the hospital has not handed over: the answer names it.
static void wrong_derivations(void)
{
    struct profile p = aes_card;
    uint8_t out[FELICA_AES_DERIVED_KEYS_SIZE];
    uint64_t answer;

    printf("Derivations that are turned down\n");
    answer = felica_derive_auth_keys(3, hospital_keys, sizeof hospital_keys, p.areas, sizeof p.areas, p.services, sizeof p.services,
                                     p.individual, p.individual_len, out, sizeof out);
    refused("reader", "mark 3", answer, FELICA_BAD_MARK_OR_LENGTH);
    p.services[0] = 0x88;
    answer = felica_derive_auth_keys(FELICA_SCHEME_BY_KEYS, hospital_keys, sizeof hospital_keys, p.areas, sizeof p.areas,
                                     p.services, sizeof p.services, p.individual, p.individual_len, out, sizeof out);
    refused("reader", "another service", answer, FELICA_KEY_MISSING);
    expect(felica_answer_node(answer) == 0x2088, "the node that has no key");
    printf("  reader  the node is 0x%04X\n", (unsigned)felica_answer_node(answer));
}

// Which of an editor's nodes have an AES key in the hospital's list, and where.
static void search(void)
{
    static const uint16_t nodes[] = {0x2008, 0x2088};
    size_t i;

    printf("A key list is searched\n");
    for (i = 0; i < sizeof nodes / sizeof nodes[0]; i++) {
        uint64_t answer = accepted("search", felica_search_key(hospital_keys, sizeof hospital_keys, nodes[i], FELICA_ALGORITHM_AES128));
        unsigned count = felica_answer_count(answer);

        if (felica_answer_scheme(answer) == FELICA_ALGORITHM_AES128) {
            // the entry is the last of those that were looked at
            expect(hospital_keys[(count - 1) * FELICA_KEY_ENTRY_SIZE + 3] == 0x52, "the key of node 0x2008");
            printf("  editor  node 0x%04X: entry %u has its key\n", (unsigned)nodes[i], count);
        } else {
            printf("  editor  node 0x%04X: no key among %u entries\n", (unsigned)nodes[i], count);
        }
    }
}

// A card that opens the dock for two commands: the session's ceiling is 3. A response that is taken raises the number too, the second one past the
// ceiling, and then the number does not step.
static void limited_session(void)
{
    const uint8_t code = des_card.written, status[STATUS_SIZE] = {0, 0};
    const uint8_t *id = transaction_id(fixed_random_1), *key = fixed_random_2;
    uint8_t session[FELICA_SESSION_SIZE], response[FELICA_FRAME_MAX], payload[FELICA_SEALED_MAX];
    unsigned commands = 0, number;
    uint64_t answer;

    printf("A session with a ceiling\n");
    accepted("making the session", felica_session_new_with_ceiling(FELICA_SCHEME_DES, 0, 3, id, FELICA_ID_SIZE, key, FELICA_DES_KEY_SIZE,
                                                                   des_card.services, sizeof des_card.services, session, sizeof session));
    answer = accepted("ceiling", felica_session_ceiling(session, sizeof session));
    printf("  reader  session made, number 0, ceiling %u\n", (unsigned)felica_answer_ceiling(answer));
    while (felica_answer_number(answer = felica_session_increment_transaction_number(session, sizeof session)) == FELICA_OK) {
        number = felica_answer_transaction_number(answer);
        printf("  reader  a command with number %u\n", number);
        commands++;
        // the card answers with the next number
        answer = accepted("response", felica_build_secure_response_frame(FELICA_SCHEME_DES, code, (uint16_t)(number + 1), id, FELICA_ID_SIZE,
                                                                         key, FELICA_DES_KEY_SIZE, status, sizeof status, response,
                                                                         sizeof response));
        answer = accepted("taking a response", felica_session_apply_response(session, sizeof session, code, response + 2,
                                                                             felica_answer_length(answer) - 2u, payload, sizeof payload));
        printf("  reader  a response with number %u\n", (unsigned)felica_answer_transaction_number(answer));
    }
    refused("reader", "number step", answer, FELICA_NUMBER_EXHAUSTED);
    expect(commands == 2, "two commands under a ceiling of 3");
    wipe(session, sizeof session);
}

int main(void)
{
    play(&aes_card);
    play(&des_card);
    wrong_derivations();
    search();
    limited_session();
    printf("All as expected.\n");
    return 0;
}
