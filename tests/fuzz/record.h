// The bytes of a session as the layout has them (tests/c/model_session.h), and what the rules do to them: not taken from the library.
#ifndef RECORD_H
#define RECORD_H

#include "shot.h"

#include "../c/model_session.h"

// A field of two bytes.
unsigned field(const uint8_t *record, unsigned at);
void set_field(uint8_t *record, unsigned at, unsigned value);

int is_session(const struct buffer *b);
// The record of the session that a call makes.
void record_of(const struct shot *s, uint8_t *record);

// The step: what it has to answer. The record is stepped where it may be.
uint64_t step(uint8_t *record);
// A response was turned away.
void count_up(uint8_t *record);

// The session is the record.
void same_record(const uint8_t *session, const uint8_t *record);

#endif
