#include "call.h"

#include "check.h"
#include "layout.h"
#include "parts.h"

#include "../../include/felica_secure.h"

#include <stdio.h>
#include <string.h>

static const char *const places[PLACES] = {"in the middle", "at the start", "at the end", "NULL if empty"};

static struct given given_of(const struct call *c)
{
    struct given g = {c->operation, c->scheme, c->code, c->number, c->ceiling, {{NULL, 0}}};

    g.in[IN_ID] = c->id;
    g.in[IN_KEYS] = c->credentials;
    g.in[IN_DATA] = c->data;
    g.in[IN_THIRD] = c->challenge_3c;
    g.in[IN_CHECKED] = c->checked;
    g.in[IN_AREAS] = c->areas;
    g.in[IN_SERVICES] = c->services;
    g.in[IN_INDIVIDUAL] = c->individual;
    g.in[IN_NODES] = c->nodes;
    g.in[IN_SESSION] = c->session;
    return g;
}

struct call call_of(enum operation operation, unsigned scheme, unsigned seed, struct text data)
{
    struct call c;

    memset(&c, 0, sizeof c);
    c.operation = operation;
    c.scheme = (uint8_t)scheme;
    c.code = (uint8_t)(seed * 37);
    c.number = (uint16_t)(seed * 40503);
    c.id = sample(seed + 20000, 6);
    c.credentials = sample(seed + 30000, credentials_size(scheme));
    c.data = data;
    return c;
}

// ---- the last call

static unsigned long count;
// Which numbers each operation gave, as bits.
static unsigned long given_numbers[OPERATIONS];
// The last call; its bytes may be gone.
static struct call last;
static unsigned last_first;
static size_t last_room;
static enum place last_place;
static struct passed last_passed;

unsigned long calls(void)
{
    return count;
}

void describe_call(char *to, size_t n)
{
    snprintf(to, n,
             "call %lu: %s scheme %u code %u number %u ceiling %u ID %zu credentials %zu data %zu (starts %02x) 3C %zu checked %zu areas %zu "
             "services %zu individual %zu nodes %zu session %zu output %zu, buffers %s: %016llx",
             count, name_of(last.operation), last.scheme, last.code, last.number, last.ceiling, last.id.n, last.credentials.n, last.data.n,
             last_first, last.challenge_3c.n, last.checked.n, last.areas.n, last.services.n, last.individual.n, last.nodes.n, last.session.n,
             last_room, places[last_place], (unsigned long long)last_passed.answer);
}

void all_called(void)
{
    int i;

    part("each function with each of its numbers");
    for (i = 0; i < OPERATIONS; i++) {
        enum operation operation = (enum operation)i;
        unsigned long own = numbers_of(operation, FELICA_SCHEME_DES) | numbers_of(operation, FELICA_SCHEME_AES128);

        // a forecast has no buffers: forecasts.c calls it itself
        check(operation == FORECAST || given_numbers[i] == own, name_of(operation));
    }
}

static void note(const struct call *c, size_t room, enum place where)
{
    last = *c;
    last_first = c->data.n != 0 ? c->data.at[0] : 0;
    last_room = room;
    last_place = where;
}

// Makes the call. The output gets bytes that differ from call to call, and is left at *written.
static uint64_t run(const struct call *c, size_t room, enum place where, const uint8_t **written)
{
    struct given g = given_of(c);
    struct text after = c->after.n != 0 ? c->after : c->session;
    struct text ink = sample((unsigned)(count % 60000) + 1, (room > c->session.n ? room : c->session.n) + 2 * AROUND);

    note(c, room, where);
    count++;
    pass(&g, room, where, ink.at, &last_passed);
    given_numbers[c->operation] |= 1ul << felica_answer_number(last_passed.answer);
    check(after.n == 0 || memcmp(last_passed.session, after.at, after.n) == 0, "the session is not as it has to be");
    *written = last_passed.out;
    return last_passed.answer;
}

// ---- what it has to answer

void answers(const struct call *c, size_t room, unsigned place, uint64_t answer, const uint8_t *wanted)
{
    const uint8_t *out;
    size_t n = takes(c->operation, TAKES_OUT) ? felica_answer_length(answer) : 0;

    check(run(c, room, (enum place)(place % PLACES), &out) == answer, "not the answer that it has to be");
    check(n == 0 || (wanted != NULL && memcmp(out, wanted, n) == 0), "not the bytes that it has to be");
}

void refuses_in(const struct call *c, size_t room, uint64_t refusal)
{
    const uint8_t *out;
    int where;

    for (where = 0; where < PLACES; where++) {
        check(run(c, room, (enum place)where, &out) == refusal, "not the refusal that it has to be");
    }
}

void refuses(const struct call *c, uint64_t refusal)
{
    static const size_t rooms[] = {0, 1, 2, 8, 16, 255, 300, 5000};
    size_t i;

    for (i = 0; i < sizeof rooms / sizeof rooms[0]; i++) {
        refuses_in(c, rooms[i], refusal);
    }
}

void tells(const struct call *c, uint64_t answer)
{
    unsigned where;

    for (where = 0; where < PLACES; where++) {
        answers(c, 0, where, answer, NULL);
    }
}

void makes(const struct call *c, const uint8_t *wanted)
{
    static const size_t others[] = {0, 1, 2, 178, 179, 181, 256 + 180, 65536 + 180};
    unsigned where;
    size_t i;

    for (where = 0; where < PLACES; where++) {
        answers(c, 180, where, (uint64_t)180 << 16, wanted);
    }
    for (i = 0; i < sizeof others / sizeof others[0]; i++) {
        refuses_in(c, others[i], FELICA_BAD_MARK_OR_LENGTH);
    }
}

static void accepts(const struct call *c, uint64_t values, size_t n, const uint8_t *wanted, uint8_t *got)
{
    // the last two would be 0 and 1 if they were cut to 16 bits
    const size_t enough[] = {n, n + 1, n + 2, n + 9, n + 300, 65536, 65537};
    const size_t less[] = {0, 1, 2, 3, n / 2, n - 1};
    static uint8_t first[DATA_MAX];
    const uint8_t *out;
    struct call small = *c;
    uint64_t answer = (uint64_t)n << 16 | values;
    size_t i;
    int where;

    for (i = 0; i < sizeof enough / sizeof enough[0]; i++) {
        for (where = 0; where < PLACES; where++) {
            check(run(c, enough[i], (enum place)where, &out) == answer, "not the acceptance that it has to be");
            if (n != 0 && wanted == NULL) {
                memcpy(first, out, n);
                wanted = first;
            }
            check(n == 0 || memcmp(out, wanted, n) == 0, "not the bytes that it has to be");
        }
    }
    small.after.n = 0;
    for (i = 0; i < sizeof less / sizeof less[0]; i++) {
        if (less[i] < n) {
            refuses_in(&small, less[i], FELICA_OUTPUT_TOO_SMALL);
        }
    }
    if (n != 0 && got != NULL) {
        memcpy(got, wanted, n);
    }
}

uint64_t padding_bits(const struct call *c)
{
    unsigned mark = scheme_of(c->operation, mark_of(c->operation, c->scheme, c->session));

    return has_trait(c->operation, PADS) ? (uint64_t)padding_of(mark, c->data.n) << 48 : 0;
}

void gives(const struct call *c, unsigned transaction, size_t n, const uint8_t *wanted, uint8_t *got)
{
    accepts(c, padding_bits(c) | (uint64_t)transaction << 32, n, wanted, got);
}

void derives(const struct call *c, unsigned scheme, size_t n, const uint8_t *wanted, uint8_t *got)
{
    accepts(c, (uint64_t)scheme << 8, n, wanted, got);
}
