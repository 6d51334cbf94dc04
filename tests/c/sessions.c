#include "parts.h"

#include "check.h"
#include "layout.h"
#include "model_frames.h"
#include "model_session.h"

#include "../../include/felica_secure.h"

#include <string.h>

// ---- bytes that are no session

// 17 of every function, where nothing else is wrong and where more is.
static void is_none(const uint8_t *bytes, size_t n)
{
    int operation;

    for (operation = 0; operation < OPERATIONS; operation++) {
        struct call c = with_session((enum operation)operation, bytes);

        if (!takes(c.operation, IN_SESSION)) {
            continue;
        }
        c.session.n = n;
        c.data = sample(11, 40);
        refuses_in(&c, 300, FELICA_BAD_MARK_OR_LENGTH);
        c.data = sample(12, 300);
        refuses_in(&c, 0, FELICA_BAD_MARK_OR_LENGTH);
    }
}

static void sizes(void)
{
    // the last ones would be right if they were cut to 8 or 16 bits
    static const size_t some[] = {512 + RECORD, 4096, 65536, 65536 + RECORD};
    static uint8_t bytes[65536 + RECORD];
    size_t n;

    memcpy(bytes, sample(13, sizeof bytes).at, sizeof bytes);
    bytes[AT_VERSION] = VERSION;
    bytes[AT_LISTED] = 5;
    bytes[AT_LISTED + 1] = 0;
    for (n = 0; n <= 256 + RECORD; n++) {
        bytes[AT_SCHEME] = (uint8_t)(1 + n % 2);
        if (n != RECORD) {
            is_none(bytes, n);
        }
    }
    for (n = 0; n < sizeof some / sizeof some[0]; n++) {
        is_none(bytes, some[n]);
    }
}

static void versions_and_marks(unsigned scheme)
{
    struct session s = session_of(scheme, 14, 5);
    uint8_t bytes[RECORD];
    unsigned b;

    // so that a step would be 9, if they were a session
    s.ceiling = s.number;
    write_session(&s, bytes);
    for (b = 0; b < 256; b++) {
        bytes[AT_VERSION] = (uint8_t)b;
        if (b != VERSION) {
            is_none(bytes, RECORD);
        }
    }
    bytes[AT_VERSION] = VERSION;
    for (b = 0; b < 256; b++) {
        bytes[AT_SCHEME] = (uint8_t)b;
        if (b != 1 && b != 2) {
            is_none(bytes, RECORD);
        }
    }
}

// Every number of nodes over 64, which no making gives; those up to 64 are sessions (parts).
static void forged_lists(unsigned scheme)
{
    struct session s = session_of(scheme, 14, 64);
    uint8_t bytes[RECORD];
    unsigned n;

    s.ceiling = s.number;
    for (n = 65; n <= 0xFFFF; n += n < 1024 || n > 0xFC00 ? 1 : 257) {
        s.listed = n;
        write_session(&s, bytes);
        is_none(bytes, RECORD);
    }
}

// What an older release kept is no session: 178 bytes of version 1, whose count stood where the ceiling is now. Nor is it one with two bytes
// more, nor with the new version.
static void older(unsigned scheme)
{
    struct session s = session_of(scheme, 14, 5);
    uint8_t bytes[RECORD], old[RECORD];

    s.turned = 3;
    write_session(&s, bytes);
    memcpy(old, bytes, RECORD);
    old[AT_VERSION] = 1;
    memcpy(old + 4, bytes + AT_COUNT, 2);
    is_none(old, 178);
    is_none(old, RECORD);
    old[AT_VERSION] = VERSION;
    is_none(old, 178);
}

// ---- making

// A session to be made by this call: with a ceiling of the seed, where it takes one.
static struct session asked_of(enum operation making, unsigned scheme, unsigned seed, unsigned listed)
{
    struct session s = session_of(scheme, seed, listed);

    s.ceiling = making == MAKE_UNDER ? seed * 31153 % NO_CEILING : NO_CEILING;
    return s;
}

static void makes_session(const struct session *s)
{
    struct call c = making_of(s);
    uint8_t bytes[RECORD];

    write_session(s, bytes);
    makes(&c, bytes);
}

static void node_lists(enum operation making, unsigned scheme)
{
    static const size_t over[] = {130, 132, 192, 256, 258, 384, 65536, 65538};
    struct session s;
    struct call c;
    unsigned n;
    size_t i;

    for (n = 0; n <= 64; n++) {
        s = asked_of(making, scheme, n + 100, n);
        makes_session(&s);
    }
    c = making_of(&s);
    for (i = 0; i < sizeof over / sizeof over[0]; i++) {
        c.nodes = sample(15, over[i]);
        refuses_in(&c, RECORD, FELICA_TOO_MANY_ENTRIES);
        c.nodes.n++;
        refuses_in(&c, RECORD, FELICA_BAD_MARK_OR_LENGTH);
    }
    for (i = 1; i <= 141; i += 2) {
        c.nodes = sample(16, i);
        refuses_in(&c, RECORD, FELICA_BAD_MARK_OR_LENGTH);
    }
}

static void makings(enum operation making, unsigned scheme)
{
    struct session s = asked_of(making, scheme, 17, 64);
    struct call good = making_of(&s), c;
    size_t n;

    for (n = 0; n <= 400; n++) {
        if (n != RECORD) {
            refuses_in(&good, n, FELICA_BAD_MARK_OR_LENGTH);
        }
        c = good;
        c.id = sample(18, n);
        if (n != 6) {
            refuses_in(&c, RECORD, FELICA_BAD_MARK_OR_LENGTH);
        }
        c = good;
        c.credentials = sample(19, n);
        if (n != credentials_size(scheme)) {
            refuses_in(&c, RECORD, FELICA_BAD_MARK_OR_LENGTH);
        }
        c = good;
        c.scheme = (uint8_t)n;
        if (c.scheme != scheme) {
            refuses_in(&c, RECORD, FELICA_BAD_MARK_OR_LENGTH);
        }
    }
    // every number is taken
    for (s.number = 0; s.number <= 0xFFFF; s.number += 257) {
        makes_session(&s);
    }
}

// Every set of what can be wrong: 17 before 1.
static void making_orders(enum operation making, unsigned scheme)
{
    enum { MARK = 1, ID = 2, CREDENTIALS = 4, ODD = 8, ROOM = 16, MANY = 32, SETS = 64 };
    struct session s = asked_of(making, scheme, 20, 7);
    unsigned set;

    makes_session(&s);
    for (set = 1; set < SETS; set++) {
        struct call c = making_of(&s);

        c.scheme = (uint8_t)(set & MARK ? 3 : scheme);
        c.id.n -= set & ID ? 1 : 0;
        c.credentials.n -= set & CREDENTIALS ? 1 : 0;
        c.nodes = sample(21, (set & MANY ? 130u : 14u) + (set & ODD ? 1 : 0));
        refuses_in(&c, set & ROOM ? RECORD + 1 : RECORD, set == MANY ? FELICA_TOO_MANY_ENTRIES : FELICA_BAD_MARK_OR_LENGTH);
    }
}

static void both_makings(unsigned scheme)
{
    static const enum operation both[] = {MAKE_SESSION, MAKE_UNDER};
    unsigned i;

    for (i = 0; i < 2; i++) {
        node_lists(both[i], scheme);
        makings(both[i], scheme);
        making_orders(both[i], scheme);
    }
}

// ---- the number

static void numbers(unsigned scheme)
{
    struct session s = session_of(scheme, 22, 3);
    unsigned n;

    s.number = 0;
    s.turned = 0x1234;
    for (n = 1; n <= 0xFFFF; n++) {
        check(holds(&s, with_session(STEP, NULL), 0, n) == (uint64_t)n << 32, "the step's number");
    }
    for (n = 0; n < 8; n++) {
        check(holds(&s, with_session(STEP, NULL), 0, n) == FELICA_NUMBER_EXHAUSTED, "9");
    }
    // every number, up and down
    for (n = 0; n <= 0xFFFF; n++) {
        struct call c = with_session(SET, NULL);

        c.number = (uint16_t)(n * 40503);
        holds(&s, c, 0, n);
    }
}

// ---- what is told

static void all_told(const struct session *s)
{
    uint8_t bytes[RECORD];
    struct call c;

    write_session(s, bytes);
    c = with_session(TELL_NUMBER, bytes);
    tells(&c, (uint64_t)s->number << 32);
    c = with_session(TELL_CEILING, bytes);
    tells(&c, (uint64_t)s->ceiling << 32);
    c = with_session(TELL_COUNT, bytes);
    tells(&c, (uint64_t)s->turned << 16);
    c = with_session(TELL_SCHEME, bytes);
    tells(&c, s->scheme << 8);
    c = with_session(GIVE_ID, bytes);
    gives(&c, 0, 6, s->id, NULL);
    c = with_session(GIVE_NODES, bytes);
    gives(&c, 0, 2 * s->listed, s->nodes, NULL);
}

static void parts(unsigned scheme)
{
    struct session s;
    unsigned i;

    for (i = 0; i <= 64; i++) {
        s = session_of(scheme, i + 200, i);
        s.turned = i * 52711 % 65536;
        s.ceiling = i * 31153 % 65536;
        all_told(&s);
    }
}

// Every node against a list: its first place. The zeros behind a list are no nodes of it.
static void indexes(unsigned scheme, unsigned listed, unsigned seed)
{
    struct session s = session_of(scheme, seed, listed);
    uint8_t bytes[RECORD];
    struct call c = with_session(INDEX, bytes);
    unsigned node, i;

    for (i = 0; i < listed; i++) {
        // some of them twice, and their neighbours by a byte
        s.nodes[2 * i] = (uint8_t)(i % 5 == 4 ? s.nodes[0] : seed + i % 50 * 3);
        s.nodes[2 * i + 1] = (uint8_t)(i % 5 == 4 ? s.nodes[1] : i % 7 * 37 + 1);
    }
    write_session(&s, bytes);
    for (node = 0; node <= 0xFFFF; node += listed == 64 ? 1 : 257) {
        c.number = (uint16_t)node;
        answers(&c, 0, node, session_call(&s, &c, 0).answer, NULL);
    }
    for (i = 0; i < 64; i++) {
        c.number = (uint16_t)(s.nodes[2 * i] + 256 * s.nodes[2 * i + 1]);
        tells(&c, session_call(&s, &c, 0).answer);
    }
}

// ---- sealing and opening

// Payloads of every length: the bytes are those of the session's parts, in this test's words and in felica_encrypt_command's.
static void seals(unsigned scheme, size_t n)
{
    struct session s = session_of(scheme, (unsigned)n + 300, (unsigned)n % 65);
    struct call sealing = sealing_of(&s, (unsigned)n * 37, s.number, sample((unsigned)n, n));
    uint8_t bytes[RECORD], wanted[256];
    struct call c = with_session(SEAL_IN, bytes);

    write_session(&s, bytes);
    c.code = sealing.code;
    c.data = sealing.data;
    if (n > payload_max(scheme)) {
        refuses(&c, FELICA_TOO_LONG);
        return;
    }
    seal_of(&sealing, wanted);
    gives(&c, 0, sealed_size(scheme, n), wanted, NULL);
    answers(&sealing, 300, (unsigned)n, padding_bits(&sealing) | (uint64_t)sealed_size(scheme, n) << 16, wanted);
}

// The session after a response that was answered so, at `to`.
static struct text session_after(struct session s, unsigned number, unsigned transaction, uint8_t *to)
{
    if (number == 0) {
        s.number = transaction;
    } else if (number >= 10 && number <= 15 && s.turned < 65535) {
        s.turned++;
    }
    write_session(&s, to);
    return text_of(to, RECORD);
}

// Responses of every length: data that nobody sealed, and data that opens.
static void applies(unsigned scheme, size_t n)
{
    struct session s = session_of(scheme, (unsigned)n + 400, (unsigned)n % 65);
    struct text payload = sample((unsigned)n + 5, n);
    uint8_t bytes[RECORD], after[RECORD], data[256], opened[256];
    struct call c = with_session(APPLY, bytes), sealing;
    unsigned number = opening_number(scheme, n);

    s.number = (unsigned)n * 200;
    s.turned = (unsigned)n * 218;
    s.ceiling = (unsigned)n * 201;
    write_session(&s, bytes);
    c.data = payload;
    c.code = (uint8_t)n;
    c.after = session_after(s, number, 0, after);
    refuses(&c, number);
    if (n > payload_max(scheme)) {
        return;
    }
    sealing = sealing_of(&s, (unsigned)n, s.number + 1 + (unsigned)n % 3 * 500, payload);
    c.data = text_of(data, seal_of(&sealing, data));
    c.after = session_after(s, 0, sealing.number, after);
    gives(&c, sealing.number, as_opened(scheme, payload, opened), opened, NULL);
}

// Every set of what can be wrong with a response: 17, 13, 14 (with AES another ID is 13), 15, 16, in this order.
static void apply_orders(unsigned scheme, unsigned below)
{
    enum { SESSION = 1, MAC = 2, ID = 4, NUMBER = 8, ROOM = 16, SETS = 32 };
    struct session s = session_of(scheme, 23, 2), other = s;
    uint8_t bytes[RECORD], after[RECORD], data[256], payload[24];
    struct call c = with_session(APPLY, bytes), sealing;
    unsigned set, number;

    s.number = 0x0200;
    other.id[5] ^= 1;
    memcpy(payload, sample(24, 24).at, 24);
    for (set = 0; set < SETS; set++) {
        sealing = sealing_of(set & ID ? &other : &s, 0x51, set & NUMBER ? s.number - below : s.number + 1, text_of(payload, 24));
        c.data = text_of(data, seal_of(&sealing, data));
        c.code = 0x51;
        data[c.data.n - 1] ^= set & MAC ? 1 : 0;
        number = set & SESSION ? 17 : set & MAC ? 13 : set & ID ? (scheme == 1 ? 14 : 13) : set & NUMBER ? 15 : set & ROOM ? 16 : 0;
        write_session(&s, bytes);
        c.after = session_after(s, number, sealing.number, after);
        bytes[AT_VERSION] = after[AT_VERSION] = set & SESSION ? 1 : VERSION;
        if (number != 0) {
            refuses_in(&c, set & ROOM ? 23 : 24, number);
        } else {
            gives(&c, sealing.number, 24, payload, NULL);
        }
    }
}

// ---- the count

// A response of each number that is counted; with AES 11 and 13 in the place of 10 and 14.
static struct text refused_response(const struct session *s, unsigned number, uint8_t *to)
{
    struct session other = *s;
    struct call c = sealing_of(s, 0, s->number, sample(25, 0));

    switch (number) {
    case 10:
        return sample(26, s->scheme == FELICA_SCHEME_DES ? 17 : 9);
    case 11:
        return sample(27, 8);
    case 12:
        return sample(28, 256);
    case 13:
        return sample(29, 16);
    case 14:
        other.id[0] ^= 0x80;
        c = sealing_of(&other, 0, s->number + 1, sample(25, 0));
        return text_of(to, seal_of(&c, to));
    default:
        return text_of(to, seal_of(&c, to));
    }
}

// Two refusals more than there is room for in the count, from `turned` on. A 16 between them is not counted.
static void counts(unsigned scheme, unsigned turned)
{
    static const unsigned with_aes[] = {11, 11, 12, 13, 13, 15};
    struct session s = session_of(scheme, 30, 1);
    uint8_t bytes[RECORD], after[RECORD], data[6][256], good[256];
    struct call c = with_session(APPLY, bytes), small, sealing = sealing_of(&s, 0, s.number + 1, sample(31, 8));
    struct text responses[6];
    unsigned i, kind;

    for (kind = 0; kind < 6; kind++) {
        responses[kind] = refused_response(&s, 10 + kind, data[kind]);
    }
    s.turned = turned;
    s.ceiling = 0x1234;
    write_session(&s, bytes);
    for (i = 0; i < 65537 - turned; i++) {
        kind = i % 6;
        c.data = responses[kind];
        c.after = session_after(s, 13, 0, after);
        answers(&c, i % 4 * 8, i, scheme == FELICA_SCHEME_DES ? 10 + kind : with_aes[kind], NULL);
        s.turned = turned + i + 1 < 65535 ? turned + i + 1 : 65535;
        write_session(&s, bytes);
        if (i % 1000 == 0 || i > 65500 - turned) {
            small = with_session(APPLY, bytes);
            small.data = text_of(good, seal_of(&sealing, good));
            refuses_in(&small, 7, FELICA_OUTPUT_TOO_SMALL);
            all_told(&s);
        }
    }
    check(s.turned == 65535, "count");
}

// ---- all of it

// What stands behind a DES key is not used, and kept.
static void behind_the_key(void)
{
    struct session s = session_of(FELICA_SCHEME_DES, 32, 4);
    struct call c = with_session(SEAL_IN, NULL);

    memcpy(s.credentials, sample(33, 36).at, 36);
    c.data = sample(34, 20);
    holds(&s, c, 300, 0);
    holds(&s, with_session(STEP, NULL), 0, 1);
    c.operation = APPLY;
    holds(&s, c, 300, 2);
    all_told(&s);
}

static void by_scheme(unsigned scheme)
{
    static const unsigned lists[] = {0, 1, 2, 31, 63, 64};
    size_t n;

    versions_and_marks(scheme);
    forged_lists(scheme);
    older(scheme);
    both_makings(scheme);
    parts(scheme);
    for (n = 0; n < sizeof lists / sizeof lists[0]; n++) {
        indexes(scheme, lists[n], (unsigned)n + 35);
    }
    for (n = 0; n <= 300; n++) {
        seals(scheme, n);
        applies(scheme, n);
    }
    apply_orders(scheme, 0);
    apply_orders(scheme, 1);
    apply_orders(scheme, 0x0101);
    numbers(scheme);
}

void sessions(void)
{
    part("sessions");
    sizes();
    by_scheme(FELICA_SCHEME_DES);
    by_scheme(FELICA_SCHEME_AES128);
    behind_the_key();
    counts(FELICA_SCHEME_DES, 0);
    counts(FELICA_SCHEME_AES128, 60000);
}
