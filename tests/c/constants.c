// The header held to what the library does, as C99 and as C++11: calls at the limit that each constant names, on both sides of it; for each
// number a call that has the condition of its row in the document; and each accessor on answers whose values are known. tests/c/run moves
// every constant and accessor by one, and this has to notice. So no constant may stand where the language asks for a constant.
#include "../../include/felica_secure.h"

#include <stdio.h>
#include <stdlib.h>
#include <string.h>

#define HOLDS(fact) holds(fact, #fact, __LINE__)

static void holds(int fact, const char *what, int line)
{
    if (!fact) {
        fprintf(stderr, "constants: line %d: %s\n", line, what);
        exit(1);
    }
}

// Inputs are zeros where nothing else is put there.
static uint8_t zeros[8192];
static uint8_t out[8192];

static unsigned number(uint64_t answer)
{
    return felica_answer_number(answer);
}

static size_t length(uint64_t answer)
{
    HOLDS(number(answer) == FELICA_OK);
    return felica_answer_length(answer);
}

// ---- a call of one size

typedef uint64_t (*sized)(size_t n);

// A fixed length: nothing but n is taken.
static void fixed(size_t n, sized call)
{
    size_t k;

    for (k = 0; k < 2 * n + 100; k++) {
        holds(number(call(k)) == (k == n ? FELICA_OK : FELICA_BAD_MARK_OR_LENGTH), "a fixed length", (int)k);
    }
}

// A limit: n is taken, what comes next is turned down.
static void limit(size_t n, size_t next, unsigned refusal, sized call)
{
    HOLDS(number(call(n)) == FELICA_OK);
    HOLDS(number(call(next)) == refusal);
}

// What is written has n bytes: an output of n takes it, one of n - 1 does not.
static void written(size_t n, sized call)
{
    HOLDS(length(call(n)) == n);
    HOLDS(length(call(n + 1)) == n);
    HOLDS(number(call(n - 1)) == FELICA_OUTPUT_TOO_SMALL);
}

// ---- derivation

struct lists {
    uint8_t keys[4000];
    size_t keys_n;
    uint8_t areas[200], services[200], individual[100];
    size_t areas_n, services_n, individual_n;
};
static struct lists l;

static void add_key(unsigned node, unsigned algorithm)
{
    uint8_t *entry = l.keys + l.keys_n;

    memset(entry, (int)(node + algorithm), FELICA_KEY_ENTRY_SIZE);
    entry[0] = (uint8_t)(node % 256);
    entry[1] = (uint8_t)(node / 256);
    entry[2] = (uint8_t)algorithm;
    l.keys_n += FELICA_KEY_ENTRY_SIZE;
}

// One area, 0x0000, and one service, 0x1008, with keys of an algorithm; the system's too.
static void plain_lists(unsigned algorithm)
{
    memset(&l, 0, sizeof l);
    add_key(FELICA_NODE_SYSTEM, algorithm);
    add_key(0x0000, algorithm);
    add_key(0x1008, algorithm);
    l.areas_n = FELICA_NODE_SIZE;
    l.services[0] = 0x08;
    l.services[1] = 0x10;
    l.services_n = FELICA_NODE_SIZE;
}

static uint64_t derive_in(unsigned mark, size_t room)
{
    return felica_derive_auth_keys((uint8_t)mark, l.keys, l.keys_n, l.areas, l.areas_n, l.services, l.services_n, l.individual,
                                   l.individual_n, out, room);
}

static uint64_t derive(unsigned mark)
{
    return derive_in(mark, sizeof out);
}

// With AES and so many of something, all keys there.
static uint64_t with_keys(size_t n)
{
    plain_lists(FELICA_ALGORITHM_AES128);
    for (; n > 3; n--) {
        add_key((unsigned)n + 0x2000, FELICA_ALGORITHM_AES128);
    }
    return derive(FELICA_SCHEME_AES128);
}

static uint64_t with_areas(size_t n)
{
    plain_lists(FELICA_ALGORITHM_AES128);
    l.areas_n = n * FELICA_NODE_SIZE;
    return derive(FELICA_SCHEME_AES128);
}

static uint64_t with_services(size_t n)
{
    plain_lists(FELICA_ALGORITHM_AES128);
    memset(l.services, 0, sizeof l.services);
    l.services_n = n * FELICA_NODE_SIZE;
    return derive(FELICA_SCHEME_AES128);
}

static uint64_t with_individual(size_t n)
{
    plain_lists(FELICA_ALGORITHM_AES128);
    // none at all is taken too
    l.individual_n = n == 0 ? 1 : n;
    return derive(FELICA_SCHEME_AES128);
}

// Bytes of a list that has one entry.
static uint64_t with_key_bytes(size_t n)
{
    memset(&l, 0, sizeof l);
    add_key(0x0000, FELICA_ALGORITHM_AES128);
    l.keys_n = n;
    l.areas_n = FELICA_NODE_SIZE;
    return derive(FELICA_SCHEME_AES128);
}

static uint64_t with_area_bytes(size_t n)
{
    memset(&l, 0, sizeof l);
    add_key(0x0000, FELICA_ALGORITHM_AES128);
    l.areas_n = n;
    return derive(FELICA_SCHEME_AES128);
}

static uint64_t derived_des(size_t room)
{
    plain_lists(FELICA_ALGORITHM_DES);
    return derive_in(FELICA_SCHEME_DES, room);
}

static uint64_t derived_aes(size_t room)
{
    plain_lists(FELICA_ALGORITHM_AES128);
    return derive_in(FELICA_SCHEME_AES128, room);
}

static void lists_of_derivation(void)
{
    HOLDS(number(with_key_bytes(FELICA_KEY_ENTRY_SIZE)) == FELICA_OK);
    HOLDS(number(with_key_bytes(FELICA_KEY_ENTRY_SIZE - 1)) == FELICA_BAD_MARK_OR_LENGTH);
    HOLDS(number(with_key_bytes(FELICA_KEY_ENTRY_SIZE + 1)) == FELICA_BAD_MARK_OR_LENGTH);
    HOLDS(number(with_area_bytes(FELICA_NODE_SIZE)) == FELICA_OK);
    HOLDS(number(with_area_bytes(FELICA_NODE_SIZE - 1)) == FELICA_BAD_MARK_OR_LENGTH);
    HOLDS(number(with_area_bytes(FELICA_NODE_SIZE + 1)) == FELICA_BAD_MARK_OR_LENGTH);
    limit(FELICA_KEYS_MAX, FELICA_KEYS_MAX + 1, FELICA_TOO_MANY_ENTRIES, with_keys);
    limit(FELICA_AREAS_MAX, FELICA_AREAS_MAX + 1, FELICA_TOO_MANY_ENTRIES, with_areas);
    limit(FELICA_SERVICES_MAX, FELICA_SERVICES_MAX + 1, FELICA_TOO_MANY_ENTRIES, with_services);
    fixed(FELICA_INDIVIDUAL_KEY_SIZE, with_individual);
    written(FELICA_DES_DERIVED_KEYS_SIZE, derived_des);
    written(FELICA_AES_DERIVED_KEYS_SIZE, derived_aes);
}

// A mark forces its scheme, which the answer has; by keys AES comes before DES.
static void schemes_of_derivation(void)
{
    plain_lists(FELICA_ALGORITHM_DES);
    HOLDS(felica_answer_scheme(derive(FELICA_SCHEME_DES)) == FELICA_SCHEME_DES);
    HOLDS(felica_answer_scheme(derive(FELICA_SCHEME_BY_KEYS)) == FELICA_SCHEME_DES);
    HOLDS(number(derive(FELICA_SCHEME_AES128)) == FELICA_OTHER_ALGORITHM);
    plain_lists(FELICA_ALGORITHM_AES128);
    HOLDS(felica_answer_scheme(derive(FELICA_SCHEME_AES128)) == FELICA_SCHEME_AES128);
    HOLDS(felica_answer_scheme(derive(FELICA_SCHEME_BY_KEYS)) == FELICA_SCHEME_AES128);
    HOLDS(number(derive(FELICA_SCHEME_DES)) == FELICA_OTHER_ALGORITHM);
    add_key(0x0000, FELICA_ALGORITHM_DES);
    add_key(0x1008, FELICA_ALGORITHM_DES);
    add_key(FELICA_NODE_SYSTEM, FELICA_ALGORITHM_DES);
    HOLDS(felica_answer_scheme(derive(FELICA_SCHEME_BY_KEYS)) == FELICA_SCHEME_AES128);
    HOLDS(felica_answer_scheme(derive(FELICA_SCHEME_DES)) == FELICA_SCHEME_DES);
}

static void algorithms(void)
{
    unsigned algorithm;

    for (algorithm = 0; algorithm < 256; algorithm++) {
        unsigned wanted = algorithm == FELICA_ALGORITHM_AES128 ? FELICA_OK
                          : algorithm == FELICA_ALGORITHM_DES  ? FELICA_OTHER_ALGORITHM
                                                               : FELICA_BAD_MARK_OR_LENGTH;

        plain_lists(algorithm);
        HOLDS(number(derive(FELICA_SCHEME_AES128)) == wanted);
    }
}

// A search of so many entries, the last of which is met; of so many bytes.
static uint64_t search_entries(size_t n)
{
    plain_lists(FELICA_ALGORITHM_DES);
    for (; n > 3; n--) {
        add_key((unsigned)n + 0x2000, FELICA_ALGORITHM_AES128);
    }
    return felica_search_key(l.keys, l.keys_n, 4 + 0x2000, FELICA_ALGORITHM_AES128);
}

static uint64_t search_bytes(size_t n)
{
    plain_lists(FELICA_ALGORITHM_DES);
    return felica_search_key(l.keys, n, FELICA_NODE_SYSTEM, FELICA_ALGORITHM_DES);
}

// The count leads to the key, whose bytes all are node + algorithm.
static void searches(void)
{
    uint64_t answer;
    size_t last;

    limit(FELICA_KEYS_MAX, FELICA_KEYS_MAX + 1, FELICA_TOO_MANY_ENTRIES, search_entries);
    HOLDS(number(search_bytes(FELICA_KEY_ENTRY_SIZE)) == FELICA_OK);
    HOLDS(number(search_bytes(FELICA_KEY_ENTRY_SIZE - 1)) == FELICA_BAD_MARK_OR_LENGTH);
    HOLDS(number(search_bytes(FELICA_KEY_ENTRY_SIZE + 1)) == FELICA_BAD_MARK_OR_LENGTH);
    answer = search_entries(FELICA_KEYS_MAX);
    last = (size_t)felica_answer_count(answer) - 1;
    HOLDS(last + 1 == FELICA_KEYS_MAX && felica_answer_scheme(answer) == FELICA_ALGORITHM_AES128);
    HOLDS(l.keys[last * FELICA_KEY_ENTRY_SIZE + 3] == 4 + 2);
    answer = felica_search_key(l.keys, l.keys_n, FELICA_NODE_SYSTEM, FELICA_ALGORITHM_AES128);
    HOLDS(answer == (uint64_t)FELICA_KEYS_MAX << 16);
    HOLDS(number(felica_search_key(l.keys, l.keys_n, 0, FELICA_SCHEME_BY_KEYS)) == FELICA_BAD_MARK_OR_LENGTH);
}

// ---- challenges

static uint64_t idm(size_t n)
{
    return felica_encrypt_challenge1a(FELICA_SCHEME_DES, zeros, FELICA_DES_DERIVED_KEYS_SIZE, zeros, n, zeros, FELICA_DES_BLOCK_SIZE, out,
                                      99);
}

static uint64_t des_keys(size_t n)
{
    return felica_decrypt_challenge1a(FELICA_SCHEME_DES, zeros, n, zeros, FELICA_IDM_SIZE, zeros, FELICA_DES_BLOCK_SIZE, out, 99);
}

static uint64_t aes_keys(size_t n)
{
    return felica_encrypt_challenge2b(FELICA_SCHEME_AES128, zeros, n, zeros, FELICA_IDM_SIZE, zeros, FELICA_AES_BLOCK_SIZE, out, 99);
}

static uint64_t third(size_t n)
{
    return felica_encrypt_challenge1b(FELICA_SCHEME_AES128, zeros, FELICA_AES_DERIVED_KEYS_SIZE, zeros, FELICA_IDM_SIZE, zeros, n, zeros,
                                      FELICA_AES_BLOCK_SIZE, out, 99);
}

static uint64_t make_2a(unsigned scheme, size_t keys, size_t n, size_t room)
{
    return felica_encrypt_challenge2a((uint8_t)scheme, zeros, keys, zeros, FELICA_IDM_SIZE, zeros, FELICA_CHALLENGE_3C_SIZE, zeros, n, out,
                                      room);
}

static uint64_t des_block(size_t n)
{
    return make_2a(FELICA_SCHEME_DES, FELICA_DES_DERIVED_KEYS_SIZE, n, 99);
}

static uint64_t aes_block(size_t n)
{
    return make_2a(FELICA_SCHEME_AES128, FELICA_AES_DERIVED_KEYS_SIZE, n, 99);
}

static uint64_t des_block_in(size_t room)
{
    return make_2a(FELICA_SCHEME_DES, FELICA_DES_DERIVED_KEYS_SIZE, FELICA_DES_BLOCK_SIZE, room);
}

static uint64_t aes_block_in(size_t room)
{
    return make_2a(FELICA_SCHEME_AES128, FELICA_AES_DERIVED_KEYS_SIZE, FELICA_AES_BLOCK_SIZE, room);
}

static uint64_t random_2(size_t n)
{
    return felica_derive_secure_session_keys(zeros, n, out, 99);
}

static uint64_t session_keys_in(size_t room)
{
    return felica_derive_secure_session_keys(zeros, FELICA_AES_BLOCK_SIZE, out, room);
}

static void challenges(void)
{
    fixed(FELICA_IDM_SIZE, idm);
    fixed(FELICA_DES_DERIVED_KEYS_SIZE, des_keys);
    fixed(FELICA_AES_DERIVED_KEYS_SIZE, aes_keys);
    fixed(FELICA_CHALLENGE_3C_SIZE, third);
    fixed(FELICA_DES_BLOCK_SIZE, des_block);
    fixed(FELICA_AES_BLOCK_SIZE, aes_block);
    fixed(FELICA_AES_BLOCK_SIZE, random_2);
    written(FELICA_DES_BLOCK_SIZE, des_block_in);
    written(FELICA_AES_BLOCK_SIZE, aes_block_in);
    written(FELICA_AES_SESSION_KEYS_SIZE, session_keys_in);
    // with Challenge 3C behind them they are credentials
    HOLDS(FELICA_AES_SESSION_KEYS_SIZE + FELICA_CHALLENGE_3C_SIZE == FELICA_AES_CREDENTIALS_SIZE);
}

// ---- sealed data

static uint64_t seal(unsigned scheme, size_t id, size_t credentials, size_t payload)
{
    return felica_encrypt_command((uint8_t)scheme, 0x14, 1, zeros, id, zeros, credentials, zeros, payload, out, sizeof out);
}

static uint64_t id_des(size_t n)
{
    return seal(FELICA_SCHEME_DES, n, FELICA_DES_KEY_SIZE, 0);
}

static uint64_t id_aes(size_t n)
{
    return seal(FELICA_SCHEME_AES128, n, FELICA_AES_CREDENTIALS_SIZE, 0);
}

static uint64_t key_des(size_t n)
{
    return seal(FELICA_SCHEME_DES, FELICA_ID_SIZE, n, 0);
}

static uint64_t credentials_aes(size_t n)
{
    return seal(FELICA_SCHEME_AES128, FELICA_ID_SIZE, n, 0);
}

static uint64_t payload_des(size_t n)
{
    return seal(FELICA_SCHEME_DES, FELICA_ID_SIZE, FELICA_DES_KEY_SIZE, n);
}

static uint64_t payload_aes(size_t n)
{
    return seal(FELICA_SCHEME_AES128, FELICA_ID_SIZE, FELICA_AES_CREDENTIALS_SIZE, n);
}

static uint64_t open_aes(const uint8_t *data, size_t n)
{
    return felica_decrypt_response(FELICA_SCHEME_AES128, 0x14, zeros, FELICA_ID_SIZE, zeros, FELICA_AES_CREDENTIALS_SIZE, data, n, out,
                                   sizeof out);
}

static uint64_t open_des(const uint8_t *data, size_t n)
{
    return felica_decrypt_response(FELICA_SCHEME_DES, 0x14, zeros, FELICA_ID_SIZE, zeros, FELICA_DES_KEY_SIZE, data, n, out, sizeof out);
}

static uint64_t authentication2(size_t n)
{
    return felica_encrypt_authentication2_payload_des(zeros, FELICA_DES_KEY_SIZE, zeros, n, out, sizeof out);
}

static uint64_t package(size_t n)
{
    return felica_generate_registration_package_des(zeros, FELICA_DES_KEY_SIZE, zeros, n, out, sizeof out);
}

static uint64_t frame_in(size_t room)
{
    return felica_build_secure_response_frame(FELICA_SCHEME_AES128, 0x15, 1, zeros, FELICA_ID_SIZE, zeros, FELICA_AES_CREDENTIALS_SIZE,
                                              zeros, FELICA_AES_PAYLOAD_MAX, out, room);
}

// Two marks and no others, each with credentials of its own size.
static void schemes_of_sealing(void)
{
    unsigned mark;

    for (mark = 0; mark < 256; mark++) {
        unsigned des = mark == FELICA_SCHEME_DES ? FELICA_OK : FELICA_BAD_MARK_OR_LENGTH;
        unsigned aes = mark == FELICA_SCHEME_AES128 ? FELICA_OK : FELICA_BAD_MARK_OR_LENGTH;

        HOLDS(number(seal(mark, FELICA_ID_SIZE, FELICA_DES_KEY_SIZE, 0)) == des);
        HOLDS(number(seal(mark, FELICA_ID_SIZE, FELICA_AES_CREDENTIALS_SIZE, 0)) == aes);
    }
    HOLDS(length(payload_des(0)) == 16);
    HOLDS(length(payload_aes(0)) == 10);
}

static void sizes_of_sealed_data(void)
{
    fixed(FELICA_ID_SIZE, id_des);
    fixed(FELICA_ID_SIZE, id_aes);
    fixed(FELICA_DES_KEY_SIZE, key_des);
    fixed(FELICA_AES_CREDENTIALS_SIZE, credentials_aes);
    limit(FELICA_DES_PAYLOAD_MAX, FELICA_DES_PAYLOAD_MAX + 1, FELICA_TOO_LONG, payload_des);
    limit(FELICA_AES_PAYLOAD_MAX, FELICA_AES_PAYLOAD_MAX + 1, FELICA_TOO_LONG, payload_aes);
    HOLDS(length(felica_forecast(FELICA_SCHEME_DES, FELICA_DES_PAYLOAD_MAX)) == length(payload_des(FELICA_DES_PAYLOAD_MAX)));
    HOLDS(length(payload_des(FELICA_DES_PAYLOAD_MAX)) == FELICA_DES_SEALED_SIZE(FELICA_DES_PAYLOAD_MAX));
    HOLDS(number(felica_forecast(FELICA_SCHEME_DES, FELICA_DES_PAYLOAD_MAX + 1)) == FELICA_TOO_LONG);
    HOLDS(length(felica_forecast(FELICA_SCHEME_AES128, FELICA_AES_PAYLOAD_MAX)) == length(payload_aes(FELICA_AES_PAYLOAD_MAX)));
    HOLDS(length(payload_aes(FELICA_AES_PAYLOAD_MAX)) == FELICA_AES_SEALED_SIZE(FELICA_AES_PAYLOAD_MAX));
    HOLDS(number(felica_forecast(FELICA_SCHEME_AES128, FELICA_AES_PAYLOAD_MAX + 1)) == FELICA_TOO_LONG);

    limit(FELICA_AUTHENTICATION2_PADDED_MAX, FELICA_AUTHENTICATION2_PADDED_MAX + 1, FELICA_TOO_LONG, authentication2);
    HOLDS(length(authentication2(FELICA_AUTHENTICATION2_PADDED_MAX)) == FELICA_AUTHENTICATION2_PADDED_MAX + 8);
    HOLDS(length(authentication2(FELICA_AUTHENTICATION2_PADDED_MAX - 7)) == FELICA_AUTHENTICATION2_PADDED_MAX + 8);
    limit(FELICA_PACKAGE_MAX, FELICA_PACKAGE_MAX + 8, FELICA_TOO_LONG, package);
    HOLDS(length(package(FELICA_PACKAGE_MAX)) == FELICA_PACKAGE_MAX + 8);

    // the longest sealed data is also the longest that can be opened, and fills the longest frame
    HOLDS(length(payload_aes(FELICA_AES_PAYLOAD_MAX)) == FELICA_SEALED_MAX);
    HOLDS(number(open_aes(zeros, FELICA_SEALED_MAX)) == FELICA_MAC_DIFFERS);
    HOLDS(number(open_aes(zeros, FELICA_SEALED_MAX + 1)) == FELICA_TOO_LONG);
    written(FELICA_FRAME_MAX, frame_in);
    frame_in(FELICA_FRAME_MAX);
    HOLDS(out[0] == FELICA_FRAME_MAX);
}

// ---- sessions

static uint8_t session[8192];

static uint64_t make(unsigned scheme, unsigned first, size_t id, size_t credentials, const uint8_t *nodes, size_t nodes_n, size_t room)
{
    return felica_session_new((uint8_t)scheme, (uint16_t)first, zeros, id, zeros, credentials, nodes, nodes_n, session, room);
}

// A DES session with this number and no nodes.
static void start(unsigned first)
{
    uint64_t answer = make(FELICA_SCHEME_DES, first, FELICA_ID_SIZE, FELICA_DES_KEY_SIZE, zeros, 0, FELICA_SESSION_SIZE);

    HOLDS(length(answer) == FELICA_SESSION_SIZE);
}

// The same, with a ceiling.
static uint64_t start_under(unsigned first, unsigned ceiling, size_t room)
{
    return felica_session_new_with_ceiling(FELICA_SCHEME_DES, (uint16_t)first, (uint16_t)ceiling, zeros, FELICA_ID_SIZE, zeros,
                                           FELICA_DES_KEY_SIZE, zeros, 0, session, room);
}

static uint64_t new_under(size_t room)
{
    return start_under(0, 1, room);
}

static uint64_t step(void)
{
    return felica_session_increment_transaction_number(session, FELICA_SESSION_SIZE);
}

static uint64_t new_in(size_t room)
{
    return make(FELICA_SCHEME_AES128, 0, FELICA_ID_SIZE, FELICA_AES_CREDENTIALS_SIZE, zeros, 0, room);
}

static uint64_t new_id(size_t n)
{
    return make(FELICA_SCHEME_DES, 0, n, FELICA_DES_KEY_SIZE, zeros, 0, FELICA_SESSION_SIZE);
}

static uint64_t new_nodes(size_t n)
{
    return make(FELICA_SCHEME_DES, 0, FELICA_ID_SIZE, FELICA_DES_KEY_SIZE, zeros, n * FELICA_NODE_SIZE, FELICA_SESSION_SIZE);
}

static uint64_t scheme_of(size_t n)
{
    return felica_session_scheme(session, n);
}

static uint64_t id_in(size_t room)
{
    return felica_session_transaction_id(session, FELICA_SESSION_SIZE, out, room);
}

static uint64_t nodes_in(size_t room)
{
    return felica_session_nodes(session, FELICA_SESSION_SIZE, out, room);
}

static void sizes_of_sessions(void)
{
    unsigned version;

    fixed(FELICA_SESSION_SIZE, new_in);
    fixed(FELICA_SESSION_SIZE, new_under);
    fixed(FELICA_ID_SIZE, new_id);
    limit(FELICA_SESSION_NODES_MAX, FELICA_SESSION_NODES_MAX + 1, FELICA_TOO_MANY_ENTRIES, new_nodes);
    HOLDS(length(new_nodes(FELICA_SESSION_NODES_MAX)) == FELICA_SESSION_SIZE);
    written(FELICA_SESSION_NODES_MAX * FELICA_NODE_SIZE, nodes_in);
    start(1);
    fixed(FELICA_SESSION_SIZE, scheme_of);
    written(FELICA_ID_SIZE, id_in);
    HOLDS(session[0] == FELICA_SESSION_VERSION);
    for (version = 0; version < 256; version++) {
        session[0] = (uint8_t)version;
        HOLDS(number(scheme_of(FELICA_SESSION_SIZE)) == (version == FELICA_SESSION_VERSION ? FELICA_OK : FELICA_BAD_MARK_OR_LENGTH));
    }
}

// 64 nodes that differ, and one that is not among them.
static void indexes(void)
{
    uint8_t nodes[200];
    unsigned i;
    uint64_t answer;

    for (i = 0; i < FELICA_SESSION_NODES_MAX; i++) {
        nodes[2 * i] = (uint8_t)i;
        nodes[2 * i + 1] = 0x10;
    }
    answer = make(FELICA_SCHEME_AES128, 0, FELICA_ID_SIZE, FELICA_AES_CREDENTIALS_SIZE, nodes, 2 * i, FELICA_SESSION_SIZE);
    HOLDS(length(answer) == FELICA_SESSION_SIZE);
    for (i = 0; i < FELICA_SESSION_NODES_MAX; i++) {
        HOLDS(felica_answer_index(felica_session_node_index(session, FELICA_SESSION_SIZE, (uint16_t)(0x1000 + i))) == i);
    }
    answer = felica_session_node_index(session, FELICA_SESSION_SIZE, 0x2000);
    HOLDS(number(answer) == FELICA_OK && felica_answer_index(answer) == FELICA_NODE_NOT_LISTED);
    HOLDS(felica_answer_scheme(felica_session_scheme(session, FELICA_SESSION_SIZE)) == FELICA_SCHEME_AES128);
    start(0);
    HOLDS(felica_answer_scheme(felica_session_scheme(session, FELICA_SESSION_SIZE)) == FELICA_SCHEME_DES);
}

// ---- values of answers

static uint64_t apply(const uint8_t *data, size_t n)
{
    return felica_session_apply_response(session, FELICA_SESSION_SIZE, 0x14, data, n, out, sizeof out);
}

// Every number, as an opening and a session tell it.
static void transaction_numbers(void)
{
    uint8_t data[100];
    unsigned n;

    start(0);
    for (n = 1; n <= 0xFFFF; n++) {
        uint64_t answer = step();

        HOLDS(number(answer) == FELICA_OK && felica_answer_transaction_number(answer) == n);
        HOLDS(felica_answer_transaction_number(felica_session_transaction_number(session, FELICA_SESSION_SIZE)) == n);
    }
    for (n = 0; n <= 0xFFFF; n += 257) {
        HOLDS(length(felica_encrypt_command(FELICA_SCHEME_AES128, 0x14, (uint16_t)n, zeros, FELICA_ID_SIZE, zeros,
                                            FELICA_AES_CREDENTIALS_SIZE, zeros, 0, data, 100)) == 10);
        HOLDS(felica_answer_transaction_number(open_aes(data, 10)) == n);
    }
}

// Every ceiling, as a session tells it: it steps below it, and not at it. One that is made without has FELICA_CEILING_NONE.
static void ceilings(void)
{
    unsigned n;

    start(5);
    HOLDS(felica_answer_ceiling(felica_session_ceiling(session, FELICA_SESSION_SIZE)) == FELICA_CEILING_NONE);
    for (n = 0; n <= 0xFFFF; n++) {
        HOLDS(length(start_under(n, n, FELICA_SESSION_SIZE)) == FELICA_SESSION_SIZE);
        HOLDS(felica_answer_ceiling(felica_session_ceiling(session, FELICA_SESSION_SIZE)) == n);
        HOLDS(number(step()) == FELICA_NUMBER_EXHAUSTED);
        HOLDS(number(felica_session_set_transaction_number(session, FELICA_SESSION_SIZE, (uint16_t)(n - 1))) == FELICA_OK);
        HOLDS(number(step()) == (n == 0 ? FELICA_NUMBER_EXHAUSTED : FELICA_OK));
    }
}

static void counts(void)
{
    unsigned n;

    start(0);
    for (n = 1; n <= 65537; n++) {
        HOLDS(number(apply(zeros, 1)) == FELICA_NOT_WHOLE_BLOCKS);
        HOLDS(felica_answer_count(felica_session_turned_away(session, FELICA_SESSION_SIZE)) == (n < 65535 ? n : 65535));
    }
}

static void lengths(void)
{
    size_t n;

    for (n = 8; n <= FELICA_PACKAGE_MAX; n += 8) {
        HOLDS(length(package(n)) == n + 8);
    }
    for (n = 0; n <= FELICA_AES_PAYLOAD_MAX; n++) {
        HOLDS(length(payload_aes(n)) == n + 10);
    }
}

// The padding that a sealing tells, and the payload's length from the size.
static void paddings(void)
{
    uint64_t answer;
    size_t n, padding;

    for (n = 0; n <= FELICA_DES_PAYLOAD_MAX; n++) {
        padding = (8 - n % 8) % 8;
        answer = payload_des(n);
        HOLDS(felica_answer_padding(answer) == padding && length(answer) - 16 - felica_answer_padding(answer) == n);
        answer = authentication2(n);
        HOLDS(felica_answer_padding(answer) == padding && length(answer) - 8 - felica_answer_padding(answer) == n);
    }
    for (n = 0; n <= FELICA_AES_PAYLOAD_MAX; n++) {
        HOLDS(felica_answer_padding(payload_aes(n)) == 0);
    }
    HOLDS(felica_answer_padding(payload_des(FELICA_DES_PAYLOAD_MAX + 1)) == 0);
}

// ---- the numbers, each by the condition of its row

static void numbers_of_derivation(void)
{
    uint64_t answer;
    unsigned node;

    plain_lists(FELICA_ALGORITHM_AES128);
    add_key(0x1008, FELICA_ALGORITHM_AES128);
    HOLDS(number(derive(FELICA_SCHEME_AES128)) == FELICA_SAME_KEY_TWICE);
    memset(&l, 0, sizeof l);
    HOLDS(number(derive(FELICA_SCHEME_BY_KEYS)) == FELICA_NO_NODES);
    HOLDS(number(derive(FELICA_SCHEME_AES128)) == FELICA_NO_NODES);
    l.areas_n = FELICA_NODE_SIZE;
    for (node = 0; node <= 0xFFFF; node += 255) {
        l.areas[0] = (uint8_t)(node % 256);
        l.areas[1] = (uint8_t)(node / 256);
        answer = derive(FELICA_SCHEME_BY_KEYS);
        HOLDS(number(answer) == FELICA_KEY_MISSING && felica_answer_node(answer) == node);
    }
    // without the system's key, which was added first
    plain_lists(FELICA_ALGORITHM_DES);
    memmove(l.keys, l.keys + FELICA_KEY_ENTRY_SIZE, 2 * FELICA_KEY_ENTRY_SIZE);
    l.keys_n -= FELICA_KEY_ENTRY_SIZE;
    answer = derive(FELICA_SCHEME_DES);
    HOLDS(number(answer) == FELICA_KEY_MISSING && felica_answer_node(answer) == FELICA_NODE_SYSTEM);
    plain_lists(FELICA_ALGORITHM_DES);
    HOLDS(number(derive(FELICA_SCHEME_AES128)) == FELICA_OTHER_ALGORITHM);
    l.individual_n = FELICA_INDIVIDUAL_KEY_SIZE;
    HOLDS(number(derive(FELICA_SCHEME_DES)) == FELICA_INDIVIDUAL_KEY_WITH_DES);
    l.individual_n = 0;
    l.services[0] = 0x09;
    HOLDS(number(derive(FELICA_SCHEME_DES)) == FELICA_DES_WITHOUT_KEYED_SERVICE);
    l.areas_n = 0;
    HOLDS(number(derive(FELICA_SCHEME_DES)) == FELICA_DES_WITHOUT_AREA);
}

static void numbers_of_frames(void)
{
    static const uint8_t other[] = {0, 0, 0, 0, 0, 7};
    uint8_t data[100];
    uint64_t answer;

    HOLDS(number(open_des(zeros, 17)) == FELICA_NOT_WHOLE_BLOCKS);
    HOLDS(number(package(0)) == FELICA_NOT_WHOLE_BLOCKS);
    HOLDS(number(open_aes(zeros, 9)) == FELICA_TOO_SHORT);
    HOLDS(number(open_des(zeros, 8)) == FELICA_TOO_SHORT);
    HOLDS(number(payload_aes(244)) == FELICA_TOO_LONG);
    answer = felica_decrypt_authentication2_payload_des(zeros, FELICA_DES_KEY_SIZE, zeros, 8, out, sizeof out);
    HOLDS(number(answer) == FELICA_MAC_DIFFERS);
    answer = felica_encrypt_command(FELICA_SCHEME_DES, 0x14, 5, other, FELICA_ID_SIZE, zeros, FELICA_DES_KEY_SIZE, zeros, 0, data, 100);
    HOLDS(length(answer) == 16);
    HOLDS(number(open_des(data, 16)) == FELICA_ID_DIFFERS);
    answer = felica_encrypt_command(FELICA_SCHEME_AES128, 0, 0, zeros, FELICA_ID_SIZE, zeros, FELICA_AES_CREDENTIALS_SIZE, zeros, 0, out,
                                    9);
    HOLDS(number(answer) == FELICA_OUTPUT_TOO_SMALL);
    HOLDS(number(idm(7)) == FELICA_BAD_MARK_OR_LENGTH);
}

static void numbers_of_sessions(void)
{
    uint8_t data[100];

    start(5);
    HOLDS(length(felica_session_encrypt_command(session, FELICA_SESSION_SIZE, 0x14, zeros, 0, data, 100)) == 16);
    HOLDS(number(apply(data, 16)) == FELICA_NUMBER_NOT_ABOVE);
    HOLDS(number(felica_session_set_transaction_number(session, FELICA_SESSION_SIZE, 4)) == FELICA_OK);
    HOLDS(number(apply(data, 16)) == FELICA_OK);
    HOLDS(number(felica_session_set_transaction_number(session, FELICA_SESSION_SIZE, 0xFFFE)) == FELICA_OK);
    HOLDS(number(step()) == FELICA_OK);
    HOLDS(number(step()) == FELICA_NUMBER_EXHAUSTED);
    HOLDS(length(start_under(5, FELICA_CEILING_NONE, FELICA_SESSION_SIZE)) == FELICA_SESSION_SIZE);
    HOLDS(number(step()) == FELICA_OK);
}

int main(void)
{
    lists_of_derivation();
    schemes_of_derivation();
    algorithms();
    searches();
    challenges();
    schemes_of_sealing();
    sizes_of_sealed_data();
    sizes_of_sessions();
    indexes();
    numbers_of_derivation();
    numbers_of_frames();
    numbers_of_sessions();
    transaction_numbers();
    ceilings();
    counts();
    lengths();
    paddings();
    return 0;
}
