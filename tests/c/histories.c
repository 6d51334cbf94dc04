#include "parts.h"

#include "check.h"
#include "layout.h"
#include "model_frames.h"
#include "model_session.h"

#include "../../include/felica_secure.h"

#include <string.h>

// The same numbers in each run.
static unsigned dice(unsigned n)
{
    static uint64_t state = 20;

    state = state * 6364136223846793005u + 1442695040888963407u;
    return (unsigned)(state >> 33) % n;
}

// What the histories had: answers of responses and steps, by number.
static unsigned long had[18];

// A response that was accepted, for a replay.
struct replay {
    uint8_t bytes[256];
    size_t n;
    unsigned code;
};

// A number around the session's, more often above it than not.
static unsigned number_near(const struct session *s)
{
    static const int steps[] = {1, 1, 1, 2, 5, 256, 0, -1, -256, 1000};

    return (unsigned)((int)s->number + steps[dice(10)]) & 0xFFFF;
}

// A response at `to`: as it should be, or wrong in one of several ways.
static struct text response(const struct session *s, const struct replay *last, struct call *c, uint8_t *to)
{
    struct session other = *s;
    unsigned code = dice(256), kind = dice(12);
    size_t most = payload_max(s->scheme) / (dice(4) == 0 ? 1 : 8), n;
    struct call sealing = sealing_of(s, code, number_near(s), sample(dice(60000), dice((unsigned)most + 1)));

    c->code = (uint8_t)code;
    if (kind == 0 && last->n != 0) {
        c->code = (uint8_t)last->code;
        return text_of(last->bytes, last->n);
    }
    if (kind == 1) {
        return sample(dice(60000), dice(300));
    }
    if (kind == 2) {
        other.id[dice(6)] ^= (uint8_t)(1 + dice(255));
        sealing.id = text_of(other.id, 6);
    } else if (kind == 3) {
        other.credentials[dice((unsigned)credentials_size(s->scheme))] ^= 0x10;
        sealing.credentials = text_of(other.credentials, credentials_size(s->scheme));
    } else if (kind == 4) {
        c->code ^= (uint8_t)(1 + dice(255));
    }
    n = seal_of(&sealing, to);
    if (kind == 5) {
        to[dice((unsigned)n)] ^= (uint8_t)(1u << dice(8));
    }
    return text_of(to, kind == 6 ? dice((unsigned)n) : n);
}

static size_t some_room(size_t n)
{
    static const size_t rooms[] = {0, 1, 7, 8, 255, 300, 300, 300};
    unsigned k = dice(12);

    return k < 8 ? rooms[k] : k == 8 && n >= 17 ? n - 17 : n >= 10 ? n - 10 : n;
}

static void respond(struct session *s, struct replay *last)
{
    struct call c = with_session(APPLY, NULL);
    uint8_t data[256];
    uint64_t answer;

    c.data = response(s, last, &c, data);
    answer = holds(s, c, some_room(c.data.n), dice(4));
    had[answer % 256]++;
    if (answer % 256 == 0) {
        memmove(last->bytes, c.data.at, c.data.n);
        last->n = c.data.n;
        last->code = c.code;
    }
}

// Any other call.
static void other_call(struct session *s)
{
    static const enum operation operations[] = {STEP,        STEP,         STEP,       SET,         SEAL_IN, SEAL_IN,   INDEX,
                                                TELL_NUMBER, TELL_CEILING, TELL_COUNT, TELL_SCHEME, GIVE_ID, GIVE_NODES};
    struct call c = with_session(operations[dice(13)], NULL);
    uint64_t answer;

    c.code = (uint8_t)dice(256);
    c.number = (uint16_t)(c.operation == SET ? number_near(s) : s->nodes[2 * dice(64)]);
    if (c.operation == SET && dice(8) == 0) {
        c.number = (uint16_t)(s->ceiling - dice(3));
    }
    c.data = sample(dice(60000), dice(260));
    answer = holds(s, c, some_room(c.data.n + 20), dice(4));
    had[answer % 256]++;
}

// None, one around the session's number, or any.
static unsigned some_ceiling(const struct session *s)
{
    unsigned k = dice(3);

    return k == 0 ? NO_CEILING : k == 1 ? number_near(s) : dice(65536);
}

// The session goes from call to call as bytes alone, each time at another place.
static void history(unsigned scheme, unsigned seed, unsigned length)
{
    struct session s = session_of(scheme, seed + 500, dice(65));
    struct call making;
    struct replay last;
    uint8_t bytes[RECORD];
    unsigned i;

    memset(&last, 0, sizeof last);
    s.ceiling = some_ceiling(&s);
    making = making_of(&s);
    write_session(&s, bytes);
    makes(&making, bytes);
    for (i = 0; i < length; i++) {
        if (dice(3) == 0) {
            respond(&s, &last);
        } else {
            other_call(&s);
        }
    }
}

// Two copies of a session go on by themselves.
static void copies(unsigned scheme)
{
    struct session first = session_of(scheme, 600, 8), second;
    struct replay last;
    unsigned i;

    memset(&last, 0, sizeof last);
    first.number = 100;
    for (i = 0; i < 20; i++) {
        respond(&first, &last);
    }
    second = first;
    for (i = 0; i < 40; i++) {
        respond(i % 2 == 0 ? &first : &second, &last);
        other_call(i % 3 == 0 ? &first : &second);
    }
}

// ---- as a caller has it: one buffer for each end, and no test between the calls

static void command_and_response(uint8_t *reader, uint8_t *card, unsigned scheme, unsigned seed)
{
    struct text payload = sample(seed, seed % 29 * 8);
    size_t n = sealed_size(scheme, payload.n);
    uint64_t sealed = (uint64_t)n << 16, opened = (uint64_t)payload.n << 16;
    uint8_t data[256], out[256];
    unsigned number = 2 * seed + 1;

    // the reader steps and seals; the card opens, steps and answers; the reader opens
    check(felica_session_increment_transaction_number(reader, RECORD) == (uint64_t)number << 32, "the reader's step");
    check(felica_session_encrypt_command(reader, RECORD, 0x14, payload.at, payload.n, data, 256) == sealed, "the command");
    check(felica_session_apply_response(card, RECORD, 0x14, data, n, out, 256) == ((uint64_t)number << 32 | opened), "the card opens it");
    check(memcmp(out, payload.at, payload.n) == 0, "the card's payload");
    check(felica_session_apply_response(card, RECORD, 0x14, data, n, out, 256) == FELICA_NUMBER_NOT_ABOVE, "the same once more");
    check(felica_session_increment_transaction_number(card, RECORD) == (uint64_t)(number + 1) << 32, "the card's step");
    check(felica_session_encrypt_command(card, RECORD, 0x15, payload.at, payload.n, data, 256) == sealed, "the response");
    check(felica_session_apply_response(reader, RECORD, 0x15, data, n, out, 256) == ((uint64_t)(number + 1) << 32 | opened),
          "the reader opens it");
    check(memcmp(out, payload.at, payload.n) == 0, "the reader's payload");
    check(felica_session_turned_away(card, RECORD) == (uint64_t)(seed + 1) << 16, "the card's count");
    check(felica_session_turned_away(reader, RECORD) == 0, "the reader's count");
}

static void dialogue(unsigned scheme)
{
    struct session s = session_of(scheme, 700, 2);
    struct call c = making_of(&s);
    uint8_t reader[RECORD], card[RECORD];
    unsigned seed;

    check(felica_session_new(c.scheme, 0, c.id.at, 6, c.credentials.at, c.credentials.n, c.nodes.at, 4, reader, RECORD) ==
              (uint64_t)RECORD << 16, "new");
    memcpy(card, reader, RECORD);
    for (seed = 0; seed < 200; seed++) {
        command_and_response(reader, card, scheme, seed);
    }
}

void histories(void)
{
    static const unsigned wanted[] = {0, 9, 10, 11, 12, 13, 14, 15, 16};
    unsigned scheme, seed;
    size_t i;

    part("histories of sessions");
    for (scheme = 1; scheme <= 2; scheme++) {
        for (seed = 0; seed < 25; seed++) {
            history(scheme, seed, 200);
        }
        copies(scheme);
        dialogue(scheme);
    }
    for (i = 0; i < sizeof wanted / sizeof wanted[0]; i++) {
        check(had[wanted[i]] >= 20, "too few histories with one of the numbers");
    }
}
