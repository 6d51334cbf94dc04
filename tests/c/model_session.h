// The session as document and layout have it, written out here once more and not taken from the library.
#ifndef MODEL_SESSION_H
#define MODEL_SESSION_H

#include "models.h"

// The layout: the version (1 byte, with the value 2), scheme mark (1), number (2), ceiling (2), number of nodes (2), ID (6), credentials (36), nodes
// (128), count (2); low bytes first.
#define RECORD 180
#define VERSION 2
enum {
    AT_VERSION = 0,
    AT_SCHEME = 1,
    AT_NUMBER = 2,
    AT_CEILING = 4,
    AT_LISTED = 6,
    AT_ID = 8,
    AT_CREDENTIALS = 14,
    AT_NODES = 50,
    AT_COUNT = 178
};

// The ceiling of a session that is made without one.
#define NO_CEILING 0xFFFF

struct session {
    unsigned scheme;
    unsigned number;
    unsigned ceiling;
    unsigned turned;
    unsigned listed;
    uint8_t id[6];
    uint8_t credentials[36];
    uint8_t nodes[128];
};

// A session of the seed, with so many nodes and without a ceiling.
struct session session_of(unsigned scheme, unsigned seed, unsigned listed);
// Its bytes, and the session of such bytes.
void write_session(const struct session *s, uint8_t *to);
struct session read_session(const uint8_t *bytes);

// The call that makes it: felica_session_new, where it has no ceiling.
struct call making_of(const struct session *s);
// A call with the session of these bytes.
struct call with_session(enum operation operation, const uint8_t *bytes);
// A sealing under the session's scheme, ID and credentials.
struct call sealing_of(const struct session *s, unsigned code, unsigned number, struct text payload);

// What a call answers in an output of this room. The session is left as it is after the call.
struct modelled session_call(struct session *s, const struct call *c, size_t room);

// Makes the call, whose session it fills in, with the buffers at one place: answer, output and session are those of session_call. Answers
// the answer.
uint64_t holds(struct session *s, struct call c, size_t room, unsigned place);

#endif
