// The C functions: the one list of them that this test, its faults and the fuzzer (tests/fuzz) go by, in the order of the header.
//
// A new function is a line here. The test then fails until its family has a fault of it (wraps.h) and a part calls it with each of its
// numbers (call.c); so does the fuzzer, until its seeds do. A new family is a word in FAMILIES and its two files.
#ifndef OPERATIONS_H
#define OPERATIONS_H

#include "sample.h"

// The families. Each has a model (model_NAME.c) and faults (faults_NAME.c).
#define FAMILIES(F) F(derivation) F(frames) F(session)

// A line has: the word for the operation, its family, the function, what it is called with, the numbers that it can give beside 0 and 17
// (docs/NUMBERS.md), its traits. operations.c says what the words for arguments and numbers mean.
#define OPERATION_LIST(O) \
    O(DERIVE, derivation, felica_derive_auth_keys, (SCHEME, IN(KEYS), IN(AREAS), IN(SERVICES), IN(INDIVIDUAL), OUT), \
      N(1) | N(2) | N(3) | N(4) | N(5) | N(6) | N(7) | N(8) | N(16), MARKED) \
    O(SEARCH, derivation, felica_search_key, (IN(KEYS), NUMBER, SCHEME), N(1), SEEKS | TELLS) \
    O(MAKE_1A, derivation, felica_encrypt_challenge1a, (SCHEME, IN(KEYS), IN(ID), IN(DATA), OUT), N(16), PLAIN) \
    O(READ_1A, derivation, felica_decrypt_challenge1a, (SCHEME, IN(KEYS), IN(ID), IN(DATA), OUT), N(16), PLAIN) \
    O(MAKE_1B, derivation, felica_encrypt_challenge1b, (SCHEME, IN(KEYS), IN(ID), IN(THIRD), IN(DATA), OUT), N(16), PLAIN) \
    O(CHECK_1B, derivation, felica_verify_challenge1b, (SCHEME, IN(KEYS), IN(ID), IN(THIRD), IN(DATA), IN(CHECKED)), N(13), PLAIN) \
    O(MAKE_2A, derivation, felica_encrypt_challenge2a, (SCHEME, IN(KEYS), IN(ID), IN(THIRD), IN(DATA), OUT), N(16), PLAIN) \
    O(READ_2A, derivation, felica_decrypt_challenge2a, (SCHEME, IN(KEYS), IN(ID), IN(THIRD), IN(DATA), OUT), N(16), PLAIN) \
    O(MAKE_2B, derivation, felica_encrypt_challenge2b, (SCHEME, IN(KEYS), IN(ID), IN(DATA), OUT), N(16), PLAIN) \
    O(CHECK_2B, derivation, felica_verify_challenge2b, (SCHEME, IN(KEYS), IN(ID), IN(DATA), IN(CHECKED)), N(13), PLAIN) \
    O(SESSION_KEYS, derivation, felica_derive_secure_session_keys, (IN(DATA), OUT), N(16), OF_AES) \
    O(SEAL, frames, felica_encrypt_command, (SCHEME, CODE, NUMBER, IN(ID), IN(KEYS), IN(DATA), OUT), SEALING, PADS) \
    O(OPEN, frames, felica_decrypt_response, (SCHEME, CODE, IN(ID), IN(KEYS), IN(DATA), OUT), OPENING, NUMBERED | OPENS) \
    O(FRAME, frames, felica_build_secure_response_frame, (SCHEME, CODE, NUMBER, IN(ID), IN(KEYS), IN(DATA), OUT), SEALING, PADS) \
    O(FORECAST, frames, felica_forecast, (SCHEME, LENGTH(DATA)), N(12), TELLS) \
    O(TRIMMED, frames, felica_decrypt_response_trimmed_des, (CODE, IN(ID), IN(KEYS), IN(DATA), OUT), OPENING, \
      OF_DES | NUMBERED | OPENS) \
    O(AUTH2_SEAL, frames, felica_encrypt_authentication2_payload_des, (IN(KEYS), IN(DATA), OUT), SEALING, OF_DES | PADS) \
    O(AUTH2_OPEN_DES, frames, felica_decrypt_authentication2_payload_des, (IN(KEYS), IN(DATA), OUT), \
      N(10) | N(12) | N(13) | N(16), OF_DES | OPENS) \
    O(PACKAGE, frames, felica_generate_registration_package_des, (IN(KEYS), IN(DATA), OUT), N(10) | N(12) | N(16), OF_DES) \
    O(AUTH2_OPEN_AES, frames, felica_decrypt_authentication2_payload_v2_aes128, (IN(ID), IN(KEYS), IN(DATA), OUT), OPENING, \
      OF_AES | NUMBERED | OPENS) \
    O(MAKE_SESSION, session, felica_session_new, (SCHEME, NUMBER, IN(ID), IN(KEYS), IN(NODES), OUT), N(1), PLAIN) \
    O(MAKE_UNDER, session, felica_session_new_with_ceiling, (SCHEME, NUMBER, CEILING, IN(ID), IN(KEYS), IN(NODES), OUT), N(1), PLAIN) \
    O(STEP, session, felica_session_increment_transaction_number, (IN(SESSION)), N(9), CHANGES | NUMBERED) \
    O(SET, session, felica_session_set_transaction_number, (IN(SESSION), NUMBER), 0, CHANGES) \
    O(SEAL_IN, session, felica_session_encrypt_command, (IN(SESSION), CODE, IN(DATA), OUT), SEALING, PADS) \
    O(APPLY, session, felica_session_apply_response, (IN(SESSION), CODE, IN(DATA), OUT), OPENING | N(15), CHANGES | NUMBERED | OPENS) \
    O(INDEX, session, felica_session_node_index, (IN(SESSION), NUMBER), 0, TELLS) \
    O(TELL_NUMBER, session, felica_session_transaction_number, (IN(SESSION)), 0, NUMBERED) \
    O(TELL_CEILING, session, felica_session_ceiling, (IN(SESSION)), 0, NUMBERED) \
    O(TELL_COUNT, session, felica_session_turned_away, (IN(SESSION)), 0, TELLS) \
    O(TELL_SCHEME, session, felica_session_scheme, (IN(SESSION)), 0, MARKED) \
    O(GIVE_ID, session, felica_session_transaction_id, (IN(SESSION), OUT), N(16), PLAIN) \
    O(GIVE_NODES, session, felica_session_nodes, (IN(SESSION), OUT), N(16), PLAIN)

#define OPERATION_WORD(word, ...) word,
enum operation { OPERATION_LIST(OPERATION_WORD) OPERATIONS };

#define FAMILY_WORD(name) family_##name,
enum family { FAMILIES(FAMILY_WORD) family_count };

// The traits of an operation.
enum trait {
    PLAIN = 0,
    // an acceptance has a scheme mark; a transaction number or a ceiling; a value in the place of a length, though nothing is written
    MARKED = 1,
    NUMBERED = 2,
    TELLS = 4,
    // it may change its session
    CHANGES = 8,
    // it opens sealed data
    OPENS = 16,
    // it takes no mark, and is of this scheme
    OF_DES = 32,
    OF_AES = 64,
    // it seals a payload, and an acceptance tells how many bytes of padding it added
    PADS = 128,
    // an acceptance has the mark that it was given, or none
    SEEKS = 256
};

// What an operation can take: buffers first. KEYS: key entries, derived keys, credentials. DATA: payload, sealed data, random block,
// challenge that is read. THIRD: Challenge 3C. CHECKED: the challenge that is checked. The ID of a challenge is the IDm.
enum argument {
    IN_ID,
    IN_KEYS,
    IN_DATA,
    IN_THIRD,
    IN_CHECKED,
    IN_AREAS,
    IN_SERVICES,
    IN_INDIVIDUAL,
    IN_NODES,
    IN_SESSION,
    INPUTS,
    TAKES_SCHEME,
    TAKES_CODE,
    TAKES_NUMBER,
    TAKES_CEILING,
    // a length with no buffer
    TAKES_LENGTH,
    TAKES_OUT
};

// What is passed to a function. What an operation does not take is left out of the call.
struct given {
    enum operation operation;
    uint8_t scheme;
    uint8_t code;
    // a transaction number, or a node
    uint16_t number;
    uint16_t ceiling;
    struct text in[INPUTS];
};

const char *name_of(enum operation operation);
enum family family_of(enum operation operation);
int has_trait(enum operation operation, enum trait trait);
int takes(enum operation operation, enum argument argument);
// The scheme that it works in: that of the mark, unless it takes none.
unsigned scheme_of(enum operation operation, unsigned mark);
// The mark that a call goes by: its own, or that of its session, which is the second byte.
unsigned mark_of(enum operation operation, unsigned scheme, struct text session);
// How many bytes stand around payload and padding in what a sealing writes under a mark.
size_t around_of(enum operation operation, unsigned mark);
// The numbers that it can give under a mark, as bits; of a call with a session the mark is the session's.
unsigned long numbers_of(enum operation operation, unsigned mark);
// The call, with the buffers where they stand.
uint64_t invoke(const struct given *g, uint8_t *const *in, uint8_t *out, size_t room);

#endif
