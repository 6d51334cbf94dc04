#include "record.h"

#include "../c/check.h"
#include "../c/layout.h"

#include "../../include/felica_secure.h"

#include <string.h>

// Of the data each two bytes are a call: which, and how far its number is from what it is counted from.
#define CALLS_MAX 40
#define CODE_BYTE 0x16

static const uint8_t payload[5] = {1, 2, 3, 4, 5};

// The session, and what it has to be.
struct course {
    const struct shot *s;
    uint8_t session[RECORD], record[RECORD];
};

#define SESSION c->session, RECORD
#define PAYLOAD payload, sizeof payload

// From three below to four above.
static uint16_t around(unsigned number, unsigned by)
{
    return (uint16_t)(number + by % 8 - 3);
}

static uint64_t sealed(const struct course *c, unsigned number, uint8_t *to, size_t room)
{
    const struct shot *s = c->s;

    return felica_encrypt_command(s->scheme, CODE_BYTE, (uint16_t)number, s->in[IN_ID].at, s->in[IN_ID].n, s->in[IN_KEYS].at,
                                  s->in[IN_KEYS].n, PAYLOAD, to, room);
}

// The number is set near the ceiling, or anywhere.
static void sets(struct course *c, unsigned near, unsigned by)
{
    uint16_t number = near ? around(field(c->record, AT_CEILING), by) : (uint16_t)(by * 257);

    check(felica_session_set_transaction_number(SESSION, number) == 0, "in a history: the setting is refused");
    set_field(c->record, AT_NUMBER, number);
}

// The ceiling does not keep a session from sealing.
static void seals(struct course *c)
{
    uint8_t wanted[64], out[64];
    uint64_t answer = sealed(c, field(c->record, AT_NUMBER), wanted, sizeof wanted);

    check(felica_session_encrypt_command(SESSION, CODE_BYTE, PAYLOAD, out, sizeof out) == answer, "in a history: the sealing answers another");
    check(memcmp(out, wanted, felica_answer_length(answer)) == 0, "in a history: the sealing gives other bytes");
}

// A response with a number near the session's, whole or damaged, in an output that takes it or in none: the number is set past the ceiling too.
static void receives(struct course *c, unsigned by, int damaged, size_t room)
{
    uint8_t data[64], out[64];
    uint16_t number = around(field(c->record, AT_NUMBER), by);
    size_t n = felica_answer_length(sealed(c, number, data, sizeof data));
    size_t size = c->s->scheme == FELICA_SCHEME_DES ? padded(sizeof payload) : sizeof payload;
    uint64_t wanted = (uint64_t)number << 32 | (uint64_t)size << 16;

    data[n - 1] ^= (uint8_t)damaged;
    if (damaged || number <= field(c->record, AT_NUMBER)) {
        wanted = damaged ? FELICA_MAC_DIFFERS : FELICA_NUMBER_NOT_ABOVE;
        count_up(c->record);
    } else if (room == 0) {
        wanted = FELICA_OUTPUT_TOO_SMALL;
    } else {
        set_field(c->record, AT_NUMBER, number);
    }
    check(felica_session_apply_response(SESSION, CODE_BYTE, data, n, out, room) == wanted, "in a history: a response is answered otherwise");
    check(felica_answer_number(wanted) != 0 || memcmp(out, payload, sizeof payload) == 0, "in a history: a response gives other bytes");
}

static void turn(struct course *c, unsigned which, unsigned by)
{
    switch (which % 8) {
    case 0:
        sets(c, which & 8, by);
        break;
    case 1:
        seals(c);
        break;
    case 2:
    case 3:
        receives(c, by, which & 8 && which & 16, which & 32 && which & 64 ? 0 : 64);
        break;
    default:
        check(felica_session_increment_transaction_number(SESSION) == step(c->record), "in a history: the step answers another");
        break;
    }
}

void history(const struct shot *s, const struct result *r)
{
    const struct buffer *calls = &s->in[IN_DATA];
    struct course c;
    size_t i;

    c.s = s;
    memcpy(c.session, r->out, RECORD);
    memcpy(c.record, r->out, RECORD);
    for (i = 0; i + 1 < calls->n && i < 2 * CALLS_MAX; i += 2) {
        turn(&c, calls->at[i], calls->at[i + 1]);
        same_record(c.session, c.record);
    }
    check(felica_session_ceiling(c.session, RECORD) == (uint64_t)field(r->out, AT_CEILING) << 32, "in a history: the ceiling is another");
}
