#include "scenes.h"

#include "planted.h"
#include "secret.h"

#include "../../include/felica_secure.h"

#include <stdio.h>
#include <stdlib.h>
#include <string.h>

#define DES FELICA_SCHEME_DES
#define AES FELICA_SCHEME_AES128
#define CODE_BYTE 0x16
#define NUMBER_SEALED 0x0105
#define PAYLOAD 40

uint8_t out[512];

static uint8_t credentials[FELICA_AES_CREDENTIALS_SIZE], derived[FELICA_AES_DERIVED_KEYS_SIZE], random_block[FELICA_AES_BLOCK_SIZE];
static uint8_t id[FELICA_ID_SIZE], idm[FELICA_IDM_SIZE], third[FELICA_CHALLENGE_3C_SIZE], individual[FELICA_INDIVIDUAL_KEY_SIZE];
static uint8_t payload[PAYLOAD], data[FELICA_FRAME_MAX], challenge[FELICA_AES_BLOCK_SIZE], session[FELICA_SESSION_SIZE];
static size_t data_n;

// The call that is measured stands between the two marks of the tables.
static uint64_t answered;
#define MEASURE(call) (tables_secret(), answered = (call), measured())

static uint64_t measured(void)
{
    tables_known();
    return answered;
}

// ---- what calls get

static void fill(uint8_t *at, size_t n, unsigned seed)
{
    size_t i;

    for (i = 0; i < n; i++) {
        at[i] = (uint8_t)(seed * 59 + i * 37 + i * i * 11 + 5);
    }
}

static void fill_all(void)
{
    fill(credentials, sizeof credentials, 1);
    fill(derived, sizeof derived, 2);
    fill(random_block, sizeof random_block, 3);
    fill(id, sizeof id, 4);
    fill(idm, sizeof idm, 5);
    fill(third, sizeof third, 6);
    fill(individual, sizeof individual, 7);
    fill(payload, sizeof payload, 8);
}

static size_t block(unsigned scheme)
{
    return scheme == DES ? FELICA_DES_BLOCK_SIZE : FELICA_AES_BLOCK_SIZE;
}

static size_t credentials_n(unsigned scheme)
{
    return scheme == DES ? FELICA_DES_KEY_SIZE : FELICA_AES_CREDENTIALS_SIZE;
}

// The last three bytes of the payload, where the twist says what they are.
static void end_payload(enum twist twist)
{
    if (twist == ENDS_5A || twist == ENDS_5A_03 || twist == ENDS_03_03_03) {
        payload[PAYLOAD - 3] = payload[PAYLOAD - 2] = twist == ENDS_03_03_03 ? 0x03 : 0x5A;
        payload[PAYLOAD - 1] = twist == ENDS_5A ? 0x5A : 0x03;
    }
}

// Sealed data as it comes over the air, with what is wrong with it. Nothing in it is marked: whoever listens has it.
static void seal(const struct scene *s)
{
    uint8_t code = s->twist == CODE ? CODE_BYTE + 1 : CODE_BYTE;

    end_payload(s->twist);
    data_n = felica_answer_length(felica_encrypt_command((uint8_t)s->scheme, code, NUMBER_SEALED, id, sizeof id, credentials,
                                                         credentials_n(s->scheme), payload, sizeof payload, data, sizeof data));
    data[data_n - 8] ^= s->twist == FIRST_BYTE;
    data[data_n - 1] ^= s->twist == LAST_BYTE;
    id[0] ^= s->twist == ID_FIRST_BYTE;
    id[5] ^= s->twist == ID_LAST_BYTE;
}

// ---- derivation

static void entry(uint8_t *at, unsigned node, unsigned algorithm)
{
    at[0] = (uint8_t)node;
    at[1] = (uint8_t)(node >> 8);
    at[2] = (uint8_t)algorithm;
    fill(at + 3, 16, node + algorithm);
    secret(at + 3, 16);
}

#define NODES 5
static const uint16_t nodes[NODES] = {0xFFFF, 0x0000, 0x1000, 0x1008, 0x1048};
static uint8_t keys[2 * NODES * FELICA_KEY_ENTRY_SIZE];

// Each node with both algorithms.
static void fill_keys(void)
{
    size_t i;

    for (i = 0; i < NODES; i++) {
        entry(keys + 2 * i * FELICA_KEY_ENTRY_SIZE, nodes[i], FELICA_ALGORITHM_DES);
        entry(keys + (2 * i + 1) * FELICA_KEY_ENTRY_SIZE, nodes[i], FELICA_ALGORITHM_AES128);
    }
}

static uint64_t derive(const struct scene *s)
{
    static const uint8_t areas[] = {0x00, 0x00, 0x00, 0x10}, services[] = {0x08, 0x10, 0x48, 0x10};
    size_t n = s->scheme == DES ? 0 : sizeof individual;

    fill_keys();
    fill_all();
    secret(individual, sizeof individual);
    return MEASURE(felica_derive_auth_keys((uint8_t)s->scheme, keys, sizeof keys, areas, sizeof areas, services, sizeof services,
                                           individual, n, out, sizeof out));
}

// The key bytes may not even be read.
static void close_keys(void)
{
    size_t i;

    fill_keys();
    for (i = 0; i < 2 * NODES; i++) {
        closed(keys + i * FELICA_KEY_ENTRY_SIZE + 3, 16);
    }
}

static uint64_t search(const struct scene *s)
{
    uint16_t node = s->twist == FOUND_LAST ? nodes[NODES - 1] : s->twist == NOT_THERE ? 0x2000 : nodes[0];

    close_keys();
    return MEASURE(felica_search_key(keys, sizeof keys, node, (uint8_t)s->scheme));
}

// ---- challenges

#define OF_SCHEME (uint8_t) s->scheme, derived, 2 * block(s->scheme), idm, sizeof idm
#define RANDOM random_block, block(s->scheme)
#define CHALLENGE challenge, block(s->scheme)
#define THIRD third, sizeof third
#define OUT out, sizeof out

static void challenge_secrets(void)
{
    secret(derived, sizeof derived);
    secret(random_block, sizeof random_block);
}

// A challenge that the other end sent: right, or with a bit changed.
static void receive(const struct scene *s)
{
    memcpy(challenge, out, block(s->scheme));
    challenge[0] ^= s->twist == FIRST_BYTE;
    challenge[block(s->scheme) - 1] ^= s->twist == LAST_BYTE;
    challenge_secrets();
}

static uint64_t make_1a(const struct scene *s)
{
    fill_all();
    challenge_secrets();
    return MEASURE(felica_encrypt_challenge1a(OF_SCHEME, RANDOM, OUT));
}

static uint64_t read_1a(const struct scene *s)
{
    fill_all();
    felica_encrypt_challenge1a(OF_SCHEME, RANDOM, OUT);
    receive(s);
    return MEASURE(felica_decrypt_challenge1a(OF_SCHEME, CHALLENGE, OUT));
}

static uint64_t make_1b(const struct scene *s)
{
    fill_all();
    challenge_secrets();
    return MEASURE(felica_encrypt_challenge1b(OF_SCHEME, THIRD, RANDOM, OUT));
}

static uint64_t check_1b(const struct scene *s)
{
    fill_all();
    felica_encrypt_challenge1b(OF_SCHEME, THIRD, RANDOM, OUT);
    receive(s);
    return MEASURE(felica_verify_challenge1b(OF_SCHEME, THIRD, RANDOM, CHALLENGE));
}

static uint64_t make_2a(const struct scene *s)
{
    fill_all();
    challenge_secrets();
    return MEASURE(felica_encrypt_challenge2a(OF_SCHEME, THIRD, RANDOM, OUT));
}

static uint64_t read_2a(const struct scene *s)
{
    fill_all();
    felica_encrypt_challenge2a(OF_SCHEME, THIRD, RANDOM, OUT);
    receive(s);
    return MEASURE(felica_decrypt_challenge2a(OF_SCHEME, THIRD, CHALLENGE, OUT));
}

static uint64_t make_2b(const struct scene *s)
{
    fill_all();
    challenge_secrets();
    return MEASURE(felica_encrypt_challenge2b(OF_SCHEME, RANDOM, OUT));
}

static uint64_t check_2b(const struct scene *s)
{
    fill_all();
    felica_encrypt_challenge2b(OF_SCHEME, RANDOM, OUT);
    receive(s);
    return MEASURE(felica_verify_challenge2b(OF_SCHEME, RANDOM, CHALLENGE));
}

static uint64_t session_keys(const struct scene *s)
{
    (void)s;
    fill_all();
    secret(random_block, sizeof random_block);
    return MEASURE(felica_derive_secure_session_keys(random_block, sizeof random_block, OUT));
}

// ---- sealed data

#define WITH_ID id, sizeof id, credentials, credentials_n(s->scheme)
#define KEY credentials, FELICA_DES_KEY_SIZE

static uint64_t encrypt(const struct scene *s)
{
    fill_all();
    secret(credentials, sizeof credentials);
    secret(payload, sizeof payload);
    return MEASURE(felica_encrypt_command((uint8_t)s->scheme, CODE_BYTE, NUMBER_SEALED, WITH_ID, payload, sizeof payload, OUT));
}

static uint64_t frame(const struct scene *s)
{
    fill_all();
    secret(credentials, sizeof credentials);
    secret(payload, sizeof payload);
    return MEASURE(felica_build_secure_response_frame((uint8_t)s->scheme, CODE_BYTE, NUMBER_SEALED, WITH_ID, payload, sizeof payload, OUT));
}

static uint64_t decrypt(const struct scene *s)
{
    fill_all();
    seal(s);
    secret(credentials, sizeof credentials);
    return MEASURE(felica_decrypt_response((uint8_t)s->scheme, CODE_BYTE, WITH_ID, data, data_n, OUT));
}

static uint64_t trimmed(const struct scene *s)
{
    fill_all();
    seal(s);
    secret(credentials, sizeof credentials);
    return MEASURE(felica_decrypt_response_trimmed_des(CODE_BYTE, WITH_ID, data, data_n, OUT));
}

static uint64_t forecast(const struct scene *s)
{
    return MEASURE(felica_forecast((uint8_t)s->scheme, PAYLOAD));
}

static uint64_t auth2_encrypt(const struct scene *s)
{
    (void)s;
    fill_all();
    secret(credentials, sizeof credentials);
    secret(payload, sizeof payload);
    return MEASURE(felica_encrypt_authentication2_payload_des(KEY, payload, sizeof payload, OUT));
}

static uint64_t auth2_decrypt_des(const struct scene *s)
{
    fill_all();
    data_n = felica_answer_length(felica_encrypt_authentication2_payload_des(KEY, payload, sizeof payload, data, sizeof data));
    data[0] ^= s->twist == FIRST_BYTE;
    data[data_n - 1] ^= s->twist == LAST_BYTE;
    secret(credentials, sizeof credentials);
    return MEASURE(felica_decrypt_authentication2_payload_des(KEY, data, data_n, OUT));
}

static uint64_t auth2_decrypt_aes(const struct scene *s)
{
    fill_all();
    data_n = felica_answer_length(felica_encrypt_command(AES, 0x43, NUMBER_SEALED, WITH_ID, payload, sizeof payload, data, sizeof data));
    data[data_n - 8] ^= s->twist == FIRST_BYTE;
    data[data_n - 1] ^= s->twist == LAST_BYTE;
    secret(credentials, sizeof credentials);
    return MEASURE(felica_decrypt_authentication2_payload_v2_aes128(WITH_ID, data, data_n, OUT));
}

static uint64_t package(const struct scene *s)
{
    (void)s;
    fill_all();
    secret(credentials, sizeof credentials);
    secret(payload, sizeof payload);
    return MEASURE(felica_generate_registration_package_des(KEY, payload, sizeof payload, OUT));
}

// ---- the session

#define SESSION session, sizeof session
#define CEILING (NUMBER_SEALED + 9)

static const uint8_t listed[] = {0x00, 0x00, 0x08, 0x10};

// A session whose credentials are secret: the making copies them, mark and all, to where it keeps them.
static void establish(const struct scene *s)
{
    uint16_t number = s->twist == NUMBER ? NUMBER_SEALED : NUMBER_SEALED - 1;

    secret(credentials, sizeof credentials);
    if (s->twist >= CEILING_BELOW) {
        felica_session_new_with_ceiling((uint8_t)s->scheme, number, (uint16_t)(number + s->twist - CEILING_REACHED), WITH_ID, listed,
                                        sizeof listed, SESSION);
    } else {
        felica_session_new((uint8_t)s->scheme, number, WITH_ID, listed, sizeof listed, SESSION);
    }
    if (secret_bytes(SESSION) != credentials_n(s->scheme)) {
        fprintf(stderr, "a session in which other bytes are secret than its credentials\n");
        exit(3);
    }
}

static uint64_t session_new(const struct scene *s)
{
    fill_all();
    secret(credentials, sizeof credentials);
    return MEASURE(felica_session_new((uint8_t)s->scheme, NUMBER_SEALED, WITH_ID, listed, sizeof listed, SESSION));
}

static uint64_t session_new_with_ceiling(const struct scene *s)
{
    fill_all();
    secret(credentials, sizeof credentials);
    return MEASURE(felica_session_new_with_ceiling((uint8_t)s->scheme, NUMBER_SEALED, CEILING, WITH_ID, listed, sizeof listed, SESSION));
}

static uint64_t session_increment(const struct scene *s)
{
    fill_all();
    establish(s);
    return MEASURE(felica_session_increment_transaction_number(SESSION));
}

static uint64_t session_set(const struct scene *s)
{
    fill_all();
    establish(s);
    return MEASURE(felica_session_set_transaction_number(SESSION, 9));
}

static uint64_t session_encrypt(const struct scene *s)
{
    fill_all();
    establish(s);
    secret(payload, sizeof payload);
    return MEASURE(felica_session_encrypt_command(SESSION, CODE_BYTE, payload, sizeof payload, OUT));
}

static uint64_t session_apply(const struct scene *s)
{
    fill_all();
    seal(s);
    establish(s);
    return MEASURE(felica_session_apply_response(SESSION, CODE_BYTE, data, data_n, OUT));
}

static uint64_t session_node(const struct scene *s)
{
    fill_all();
    establish(s);
    return MEASURE(felica_session_node_index(SESSION, 0x1008));
}

static uint64_t session_number(const struct scene *s)
{
    fill_all();
    establish(s);
    return MEASURE(felica_session_transaction_number(SESSION));
}

static uint64_t session_ceiling(const struct scene *s)
{
    fill_all();
    establish(s);
    return MEASURE(felica_session_ceiling(SESSION));
}

static uint64_t session_count(const struct scene *s)
{
    fill_all();
    establish(s);
    return MEASURE(felica_session_turned_away(SESSION));
}

static uint64_t session_scheme(const struct scene *s)
{
    fill_all();
    establish(s);
    return MEASURE(felica_session_scheme(SESSION));
}

static uint64_t session_id(const struct scene *s)
{
    fill_all();
    establish(s);
    return MEASURE(felica_session_transaction_id(SESSION, OUT));
}

static uint64_t session_nodes(const struct scene *s)
{
    fill_all();
    establish(s);
    return MEASURE(felica_session_nodes(SESSION, OUT));
}

// ---- what is planted

// A secret block and another, which is the same or differs in a byte.
static void compared(const struct scene *s)
{
    fill_all();
    memcpy(challenge, random_block, sizeof challenge);
    challenge[0] ^= s->twist == FIRST_BYTE;
    challenge[sizeof challenge - 1] ^= s->twist == LAST_BYTE;
    secret(random_block, sizeof random_block);
}

static uint64_t early_exit(const struct scene *s)
{
    compared(s);
    return MEASURE((uint64_t)!planted_early_exit(random_block, challenge, sizeof challenge) * 13);
}

static uint64_t all_bytes(const struct scene *s)
{
    compared(s);
    return MEASURE((uint64_t)!planted_all_bytes(random_block, challenge, sizeof challenge) * 13);
}

static uint64_t lookup(const struct scene *s)
{
    (void)s;
    fill_all();
    secret(random_block, sizeof random_block);
    return MEASURE(planted_lookup(random_block[0]) * 0);
}

static uint64_t key_read(const struct scene *s)
{
    (void)s;
    close_keys();
    return MEASURE(planted_key_read(keys, sizeof keys) * 0);
}

static uint64_t jump_behind_lookup(const struct scene *s)
{
    (void)s;
    fill_all();
    secret(random_block, sizeof random_block);
    return MEASURE((uint64_t)planted_jump_behind_lookup(random_block[0]) * 0);
}

// ---- all of them

#define ALL_OUT 0
#define NO_OUT sizeof out
#define BOTH(function, run, twist, with, number, des_front, aes_front) \
    {function, "DES" with, run, DES, twist, number, des_front}, {function, "AES" with, run, AES, twist, number, aes_front}
#define CHECKING(function, run) \
    BOTH(function, run, RIGHT, "", 0, NO_OUT, NO_OUT), BOTH(function, run, FIRST_BYTE, ", first byte differs", 13, NO_OUT, NO_OUT), \
        BOTH(function, run, LAST_BYTE, ", last byte differs", 13, NO_OUT, NO_OUT)

const struct scene scenes[] = {
    BOTH("felica_derive_auth_keys", derive, RIGHT, "", 0, ALL_OUT, ALL_OUT),
    BOTH("felica_search_key", search, RIGHT, ", the first node", 0, NO_OUT, NO_OUT),
    BOTH("felica_search_key", search, FOUND_LAST, ", the last node", 0, NO_OUT, NO_OUT),
    BOTH("felica_search_key", search, NOT_THERE, ", not there", 0, NO_OUT, NO_OUT),
    BOTH("felica_encrypt_challenge1a", make_1a, RIGHT, "", 0, ALL_OUT, ALL_OUT),
    BOTH("felica_decrypt_challenge1a", read_1a, RIGHT, "", 0, ALL_OUT, ALL_OUT),
    BOTH("felica_encrypt_challenge1b", make_1b, RIGHT, "", 0, ALL_OUT, ALL_OUT),
    CHECKING("felica_verify_challenge1b", check_1b),
    BOTH("felica_encrypt_challenge2a", make_2a, RIGHT, "", 0, ALL_OUT, ALL_OUT),
    BOTH("felica_decrypt_challenge2a", read_2a, RIGHT, "", 0, ALL_OUT, ALL_OUT),
    BOTH("felica_encrypt_challenge2b", make_2b, RIGHT, "", 0, ALL_OUT, ALL_OUT),
    CHECKING("felica_verify_challenge2b", check_2b),
    {"felica_derive_secure_session_keys", "AES", session_keys, AES, RIGHT, 0, ALL_OUT},
    // with AES the number goes before the sealed bytes as it is
    BOTH("felica_encrypt_command", encrypt, RIGHT, "", 0, ALL_OUT, 2),
    BOTH("felica_build_secure_response_frame", frame, RIGHT, "", 0, 2, 4),
    BOTH("felica_decrypt_response", decrypt, RIGHT, "", 0, ALL_OUT, ALL_OUT),
    BOTH("felica_decrypt_response", decrypt, FIRST_BYTE, ", first byte of the sealed MAC changed", 13, NO_OUT, NO_OUT),
    BOTH("felica_decrypt_response", decrypt, LAST_BYTE, ", last byte of the sealed MAC changed", 13, NO_OUT, NO_OUT),
    BOTH("felica_decrypt_response", decrypt, CODE, ", code differs", 13, NO_OUT, NO_OUT),
    {"felica_decrypt_response", "DES, ID's first byte differs", decrypt, DES, ID_FIRST_BYTE, 14, NO_OUT},
    {"felica_decrypt_response", "DES, ID's last byte differs", decrypt, DES, ID_LAST_BYTE, 14, NO_OUT},
    BOTH("felica_forecast", forecast, RIGHT, "", 0, NO_OUT, NO_OUT),
    {"felica_decrypt_response_trimmed_des", "DES", trimmed, DES, RIGHT, 0, ALL_OUT},
    {"felica_decrypt_response_trimmed_des", "DES, the payload ends 5A", trimmed, DES, ENDS_5A, 0, ALL_OUT},
    {"felica_decrypt_response_trimmed_des", "DES, the payload ends 5A 03", trimmed, DES, ENDS_5A_03, 0, ALL_OUT},
    {"felica_decrypt_response_trimmed_des", "DES, the payload ends 03 03 03", trimmed, DES, ENDS_03_03_03, 0, ALL_OUT},
    {"felica_decrypt_response_trimmed_des", "DES, MAC differs", trimmed, DES, LAST_BYTE, 13, NO_OUT},
    {"felica_encrypt_authentication2_payload_des", "DES", auth2_encrypt, DES, RIGHT, 0, ALL_OUT},
    {"felica_decrypt_authentication2_payload_des", "DES", auth2_decrypt_des, DES, RIGHT, 0, ALL_OUT},
    {"felica_decrypt_authentication2_payload_des", "DES, first byte differs", auth2_decrypt_des, DES, FIRST_BYTE, 13, NO_OUT},
    {"felica_decrypt_authentication2_payload_des", "DES, last byte differs", auth2_decrypt_des, DES, LAST_BYTE, 13, NO_OUT},
    {"felica_decrypt_authentication2_payload_v2_aes128", "AES", auth2_decrypt_aes, AES, RIGHT, 0, ALL_OUT},
    {"felica_decrypt_authentication2_payload_v2_aes128", "AES, first byte of the sealed MAC changed", auth2_decrypt_aes, AES, FIRST_BYTE,
     13, NO_OUT},
    {"felica_decrypt_authentication2_payload_v2_aes128", "AES, last byte of the sealed MAC changed", auth2_decrypt_aes, AES, LAST_BYTE,
     13, NO_OUT},
    {"felica_generate_registration_package_des", "DES", package, DES, RIGHT, 0, ALL_OUT},
    BOTH("felica_session_new", session_new, RIGHT, "", 0, NO_OUT, NO_OUT),
    BOTH("felica_session_new_with_ceiling", session_new_with_ceiling, RIGHT, "", 0, NO_OUT, NO_OUT),
    BOTH("felica_session_increment_transaction_number", session_increment, RIGHT, "", 0, NO_OUT, NO_OUT),
    BOTH("felica_session_increment_transaction_number", session_increment, CEILING_NEXT, ", to the ceiling", 0, NO_OUT, NO_OUT),
    BOTH("felica_session_increment_transaction_number", session_increment, CEILING_REACHED, ", at the ceiling", 9, NO_OUT, NO_OUT),
    BOTH("felica_session_increment_transaction_number", session_increment, CEILING_BELOW, ", above the ceiling", 9, NO_OUT, NO_OUT),
    BOTH("felica_session_set_transaction_number", session_set, RIGHT, "", 0, NO_OUT, NO_OUT),
    BOTH("felica_session_encrypt_command", session_encrypt, RIGHT, "", 0, ALL_OUT, 2),
    BOTH("felica_session_apply_response", session_apply, RIGHT, "", 0, ALL_OUT, ALL_OUT),
    BOTH("felica_session_apply_response", session_apply, LAST_BYTE, ", MAC differs", 13, NO_OUT, NO_OUT),
    BOTH("felica_session_apply_response", session_apply, NUMBER, ", number not above", 15, NO_OUT, NO_OUT),
    BOTH("felica_session_node_index", session_node, RIGHT, "", 0, NO_OUT, NO_OUT),
    BOTH("felica_session_transaction_number", session_number, RIGHT, "", 0, NO_OUT, NO_OUT),
    BOTH("felica_session_ceiling", session_ceiling, RIGHT, "", 0, NO_OUT, NO_OUT),
    BOTH("felica_session_turned_away", session_count, RIGHT, "", 0, NO_OUT, NO_OUT),
    BOTH("felica_session_scheme", session_scheme, RIGHT, "", 0, NO_OUT, NO_OUT),
    BOTH("felica_session_transaction_id", session_id, RIGHT, "", 0, NO_OUT, NO_OUT),
    BOTH("felica_session_nodes", session_nodes, RIGHT, "", 0, NO_OUT, NO_OUT),
    {"planted_early_exit", "planted", early_exit, DES, RIGHT, 0, NO_OUT},
    {"planted_early_exit", "planted, first byte differs", early_exit, DES, FIRST_BYTE, 13, NO_OUT},
    {"planted_early_exit", "planted, last byte differs", early_exit, DES, LAST_BYTE, 13, NO_OUT},
    {"planted_all_bytes", "planted", all_bytes, DES, RIGHT, 0, NO_OUT},
    {"planted_all_bytes", "planted, first byte differs", all_bytes, DES, FIRST_BYTE, 13, NO_OUT},
    {"planted_all_bytes", "planted, last byte differs", all_bytes, DES, LAST_BYTE, 13, NO_OUT},
    {"planted_lookup", "planted", lookup, DES, RIGHT, 0, NO_OUT},
    {"planted_jump_behind_lookup", "planted", jump_behind_lookup, DES, RIGHT, 0, NO_OUT},
    {"planted_key_read", "planted", key_read, DES, RIGHT, 0, NO_OUT},
};
const size_t scenes_count = sizeof scenes / sizeof scenes[0];

int length_fits(const struct scene *s, size_t n)
{
    if (s->run == search) {
        // each node has an entry with DES, then one with AES
        return n == (s->twist == NOT_THERE ? 2 * NODES : (s->twist == FOUND_LAST ? 2 * NODES - 2 : 0) + s->scheme);
    }
    return s->run != trimmed || n == (s->twist == ENDS_03_03_03 ? PAYLOAD - 3 : PAYLOAD);
}
