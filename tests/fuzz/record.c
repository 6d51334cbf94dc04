#include "record.h"

#include "../c/check.h"

#include "../../include/felica_secure.h"

#include <string.h>

unsigned field(const uint8_t *record, unsigned at)
{
    return record[at] + 256u * record[at + 1];
}

void set_field(uint8_t *record, unsigned at, unsigned value)
{
    record[at] = (uint8_t)(value % 256);
    record[at + 1] = (uint8_t)(value / 256);
}

int is_session(const struct buffer *b)
{
    return b->n == RECORD && b->at[AT_VERSION] == VERSION && b->at[AT_SCHEME] >= 1 && b->at[AT_SCHEME] <= 2 && field(b->at, AT_LISTED) <= 64;
}

void record_of(const struct shot *s, uint8_t *record)
{
    memset(record, 0, RECORD);
    record[AT_VERSION] = VERSION;
    record[AT_SCHEME] = s->scheme;
    set_field(record, AT_NUMBER, s->number);
    set_field(record, AT_CEILING, s->op == MAKE_UNDER ? s->ceiling : NO_CEILING);
    set_field(record, AT_LISTED, (unsigned)s->in[IN_NODES].n / 2);
    memcpy(record + AT_ID, s->in[IN_ID].at, s->in[IN_ID].n);
    memcpy(record + AT_CREDENTIALS, s->in[IN_KEYS].at, s->in[IN_KEYS].n);
    memcpy(record + AT_NODES, s->in[IN_NODES].at, s->in[IN_NODES].n);
}

uint64_t step(uint8_t *record)
{
    unsigned number = field(record, AT_NUMBER);

    if (number >= field(record, AT_CEILING)) {
        return FELICA_NUMBER_EXHAUSTED;
    }
    set_field(record, AT_NUMBER, number + 1);
    return (uint64_t)(number + 1) << 32;
}

void count_up(uint8_t *record)
{
    unsigned count = field(record, AT_COUNT);

    set_field(record, AT_COUNT, count < 0xFFFF ? count + 1 : count);
}

void same_record(const uint8_t *session, const uint8_t *record)
{
    check(field(session, AT_NUMBER) == field(record, AT_NUMBER), "the session's number is another");
    check(field(session, AT_CEILING) == field(record, AT_CEILING), "the session's ceiling is another");
    check(field(session, AT_COUNT) == field(record, AT_COUNT), "the session's count is another");
    check(memcmp(session, record, RECORD) == 0, "the session is another");
}
