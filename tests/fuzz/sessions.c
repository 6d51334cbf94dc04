#include "record.h"

#include "../c/check.h"
#include "../c/layout.h"

#include "../../include/felica_secure.h"

#include <string.h>

#define WHOLE(bytes) bytes, RECORD

// A response that was taken sets the number; one that was turned away, but for a small output, is counted.
static void received(uint64_t answer, uint8_t *record)
{
    unsigned number = felica_answer_number(answer);

    if (number >= 10 && number <= 15) {
        count_up(record);
    }
    if (number == 0) {
        check(felica_answer_transaction_number(answer) > field(record, AT_NUMBER), "the number is not above what it was");
        set_field(record, AT_NUMBER, felica_answer_transaction_number(answer));
    }
}

void session_after(const struct shot *s, const struct result *r)
{
    const struct buffer *before = &s->in[IN_SESSION];
    uint8_t record[RECORD];

    if (!takes(s->op, IN_SESSION)) {
        return;
    }
    if (!is_session(before)) {
        check(r->answer == FELICA_BAD_MARK_OR_LENGTH, "another answer than 17 of bytes that are no session");
        check(memcmp(r->session, before->at, before->n) == 0, "bytes that are no session changed");
        return;
    }
    check(r->answer != FELICA_BAD_MARK_OR_LENGTH, "17 of a session");
    memcpy(record, before->at, RECORD);
    if (s->op == STEP) {
        check(r->answer == step(record), "the step answers another");
    } else if (s->op == SET) {
        set_field(record, AT_NUMBER, s->number);
    } else if (s->op == APPLY) {
        received(r->answer, record);
    }
    same_record(r->session, record);
}

static void made(const struct shot *s, const struct result *r)
{
    uint8_t record[RECORD];

    record_of(s, record);
    check(r->answer == (uint64_t)RECORD << 16, "the size of a made session");
    same_record(r->out, record);
    history(s, r);
}

// What a session sealed is a response to the same session one number earlier.
static void opens_as_response(const struct shot *s, const struct result *r)
{
    const uint8_t *sealing = s->in[IN_SESSION].at;
    uint8_t session[RECORD], back[300];
    unsigned number = field(sealing, AT_NUMBER);
    size_t n = s->in[IN_DATA].n, size = sealing[AT_SCHEME] == FELICA_SCHEME_DES ? padded(n) : n;
    uint64_t answer;

    if (number == 0) {
        return;
    }
    memcpy(session, sealing, RECORD);
    felica_session_set_transaction_number(WHOLE(session), (uint16_t)(number - 1));
    answer = felica_session_apply_response(WHOLE(session), s->code, r->out, felica_answer_length(r->answer), back, sizeof back);
    check(answer == ((uint64_t)number << 32 | (uint64_t)size << 16), "what a session sealed is not opened");
    check(memcmp(back, s->in[IN_DATA].at, n) == 0, "what a session sealed opens as other bytes");
}

// What was opened seals to the same bytes, under the session as it is behind the step.
static void seals_as_command(const struct shot *s, const struct result *r)
{
    const struct buffer *data = &s->in[IN_DATA];
    uint8_t back[300];
    size_t n = felica_answer_length(r->answer);
    uint64_t answer = felica_session_encrypt_command(WHOLE(r->session), s->code, r->out, n, back, sizeof back);

    check(answer == (uint64_t)data->n << 16 && memcmp(back, data->at, data->n) == 0, "what was opened seals to others");
}

// An index is the node's first place.
static uint64_t first_place(const uint8_t *session, unsigned node)
{
    unsigned i, n = field(session, AT_LISTED);

    for (i = 0; i < n && field(session, AT_NODES + 2 * i) != node; i++) {
    }
    return (uint64_t)(i < n ? i : FELICA_NODE_NOT_LISTED) << 16;
}

// A session gives bytes as it has them.
static void same_bytes(const struct result *r, const uint8_t *bytes, size_t n)
{
    check(r->answer == (uint64_t)n << 16 && memcmp(r->out, bytes, n) == 0, "other bytes than those of the session");
}

static void told(const struct shot *s, const struct result *r)
{
    const uint8_t *session = s->in[IN_SESSION].at;

    switch (s->op) {
    case INDEX:
        check(r->answer == first_place(session, s->number), "not the first place of a node");
        break;
    case TELL_NUMBER:
        check(r->answer == (uint64_t)field(session, AT_NUMBER) << 32, "a number that is not the session's");
        break;
    case TELL_CEILING:
        check(r->answer == (uint64_t)field(session, AT_CEILING) << 32, "a ceiling that is not the session's");
        break;
    case TELL_COUNT:
        check(r->answer == (uint64_t)field(session, AT_COUNT) << 16, "a count that is not the session's");
        break;
    case TELL_SCHEME:
        check(r->answer == (uint64_t)session[AT_SCHEME] << 8, "a scheme that is not the session's");
        break;
    case GIVE_ID:
        same_bytes(r, session + AT_ID, 6);
        break;
    case GIVE_NODES:
        same_bytes(r, session + AT_NODES, 2 * field(session, AT_LISTED));
        break;
    default:
        break;
    }
}

void session_inverse(const struct shot *s, const struct result *r)
{
    switch (s->op) {
    case MAKE_SESSION:
    case MAKE_UNDER:
        made(s, r);
        break;
    case SEAL_IN:
        opens_as_response(s, r);
        break;
    case APPLY:
        seals_as_command(s, r);
        break;
    default:
        told(s, r);
        break;
    }
}
