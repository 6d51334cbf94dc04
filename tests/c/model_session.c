#include "model_session.h"

#include "layout.h"
#include "model_frames.h"

#include "../../include/felica_secure.h"

#include <string.h>

struct session session_of(unsigned scheme, unsigned seed, unsigned listed)
{
    struct session s;

    memset(&s, 0, sizeof s);
    s.scheme = scheme;
    s.number = seed * 40503 % 65536;
    s.ceiling = NO_CEILING;
    s.listed = listed;
    memcpy(s.id, sample(seed + 41000, 6).at, 6);
    memcpy(s.credentials, sample(seed + 42000, 36).at, credentials_size(scheme));
    memcpy(s.nodes, sample(seed + 43000, 128).at, 2 * listed);
    return s;
}

static void write_number(unsigned n, uint8_t *to)
{
    to[0] = (uint8_t)(n % 256);
    to[1] = (uint8_t)(n / 256);
}

void write_session(const struct session *s, uint8_t *to)
{
    to[AT_VERSION] = VERSION;
    to[AT_SCHEME] = (uint8_t)s->scheme;
    write_number(s->number, to + AT_NUMBER);
    write_number(s->ceiling, to + AT_CEILING);
    write_number(s->listed, to + AT_LISTED);
    memcpy(to + AT_ID, s->id, 6);
    memcpy(to + AT_CREDENTIALS, s->credentials, 36);
    memcpy(to + AT_NODES, s->nodes, 128);
    write_number(s->turned, to + AT_COUNT);
}

static unsigned read_number(const uint8_t *at)
{
    return at[0] + 256u * at[1];
}

struct session read_session(const uint8_t *bytes)
{
    struct session s;

    s.scheme = bytes[AT_SCHEME];
    s.number = read_number(bytes + AT_NUMBER);
    s.ceiling = read_number(bytes + AT_CEILING);
    s.listed = read_number(bytes + AT_LISTED);
    memcpy(s.id, bytes + AT_ID, 6);
    memcpy(s.credentials, bytes + AT_CREDENTIALS, 36);
    memcpy(s.nodes, bytes + AT_NODES, 128);
    s.turned = read_number(bytes + AT_COUNT);
    return s;
}

// ---- calls

struct call sealing_of(const struct session *s, unsigned code, unsigned number, struct text payload)
{
    struct call c;

    memset(&c, 0, sizeof c);
    c.operation = SEAL;
    c.scheme = (uint8_t)s->scheme;
    c.code = (uint8_t)code;
    c.number = (uint16_t)number;
    c.id = text_of(s->id, 6);
    c.credentials = text_of(s->credentials, credentials_size(s->scheme));
    c.data = payload;
    return c;
}

struct call making_of(const struct session *s)
{
    struct call c = sealing_of(s, 0, s->number, text_of(NULL, 0));

    c.operation = s->ceiling == NO_CEILING ? MAKE_SESSION : MAKE_UNDER;
    c.ceiling = (uint16_t)s->ceiling;
    c.nodes = text_of(s->nodes, 2 * s->listed);
    return c;
}

struct call with_session(enum operation operation, const uint8_t *bytes)
{
    struct call c;

    memset(&c, 0, sizeof c);
    c.operation = operation;
    c.session = text_of(bytes, RECORD);
    return c;
}

// ---- answers

// n bytes, or 16.
static struct modelled writes(const uint8_t *bytes, size_t n, unsigned transaction, size_t room)
{
    struct modelled t;

    memset(&t, 0, sizeof t);
    if (room < n) {
        t.answer = FELICA_OUTPUT_TOO_SMALL;
    } else {
        t.answer = (uint64_t)transaction << 32 | (uint64_t)n << 16;
        memcpy(t.bytes, bytes, n);
    }
    return t;
}

static struct modelled says(uint64_t answer)
{
    struct modelled t;

    memset(&t, 0, sizeof t);
    t.answer = answer;
    return t;
}

// At or above the ceiling it refuses.
static struct modelled step(struct session *s)
{
    if (s->number >= s->ceiling) {
        return says(FELICA_NUMBER_EXHAUSTED);
    }
    s->number++;
    return says((uint64_t)s->number << 32);
}

static struct modelled seal(const struct session *s, const struct call *c, size_t room)
{
    struct call sealing = sealing_of(s, c->code, s->number, c->data);
    struct modelled t;
    uint8_t bytes[256];

    if (c->data.n > payload_max(s->scheme)) {
        return says(FELICA_TOO_LONG);
    }
    t = writes(bytes, seal_of(&sealing, bytes), 0, room);
    if (t.answer % 256 == 0) {
        t.answer |= (uint64_t)padding_of(s->scheme, c->data.n) << 48;
    }
    return t;
}

// Open, require the number to exceed the session's, then set it. 10 to 15 are counted.
static struct modelled apply(struct session *s, const struct call *c, size_t room)
{
    struct call opening = sealing_of(s, c->code, 0, c->data);
    struct opened o = opening_of(&opening);
    struct modelled t = writes(o.bytes, o.n, o.transaction, room);

    if (o.number == 0 && o.transaction <= s->number) {
        o.number = FELICA_NUMBER_NOT_ABOVE;
    }
    if (o.number != 0) {
        t = says(o.number);
        s->turned += s->turned < 65535;
    } else if (t.answer % 256 == 0) {
        s->number = o.transaction;
    }
    return t;
}

// The first place, or 64. A session has at most 64 nodes: more of them are no session.
static struct modelled place(const struct session *s, unsigned node)
{
    unsigned n = s->listed, i = 0;

    while (i < n && s->nodes[2 * i] + 256u * s->nodes[2 * i + 1] != node) {
        i++;
    }
    return says((uint64_t)(i < n ? i : 64) << 16);
}

struct modelled session_call(struct session *s, const struct call *c, size_t room)
{
    switch (c->operation) {
    case STEP:
        return step(s);
    case SET:
        s->number = c->number;
        return says(0);
    case SEAL_IN:
        return seal(s, c, room);
    case APPLY:
        return apply(s, c, room);
    case INDEX:
        return place(s, c->number);
    case TELL_NUMBER:
        return says((uint64_t)s->number << 32);
    case TELL_CEILING:
        return says((uint64_t)s->ceiling << 32);
    case TELL_COUNT:
        return says((uint64_t)s->turned << 16);
    case TELL_SCHEME:
        return says(s->scheme << 8);
    case GIVE_ID:
        return writes(s->id, 6, 0, room);
    default:
        return writes(s->nodes, 2 * s->listed, 0, room);
    }
}

uint64_t holds(struct session *s, struct call c, size_t room, unsigned place)
{
    uint8_t before[RECORD], after[RECORD];
    struct modelled t;

    write_session(s, before);
    t = session_call(s, &c, room);
    write_session(s, after);
    c.session = text_of(before, RECORD);
    c.after = text_of(after, RECORD);
    answers(&c, room, place, t.answer, t.bytes);
    return t.answer;
}

// ---- as a model of every call but the making of a session, which write_session is

int model_session(const struct call *c, struct modelled *m)
{
    const uint8_t *bytes = c->session.at;
    struct session s;

    if (c->operation == MAKE_SESSION || c->operation == MAKE_UNDER) {
        return 0;
    }
    if (c->session.n != RECORD || bytes[AT_VERSION] != VERSION || bytes[AT_SCHEME] < 1 || bytes[AT_SCHEME] > 2) {
        m->answer = FELICA_BAD_MARK_OR_LENGTH;
        return 1;
    }
    s = read_session(bytes);
    *m = session_call(&s, c, sizeof m->bytes);
    return 1;
}
