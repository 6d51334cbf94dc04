// The header by itself, as C99 and as C++11: included twice, its constants against docs/NUMBERS.md, its accessors, its sizes by a rule, and a
// call of each function, so that C++ too finds it in the archive. That the constants are what the library goes by: constants.c.
#include "../../include/felica_secure.h"
#include "../../include/felica_secure.h"

#define FACT(name, holds) typedef char fact_##name[(holds) ? 1 : -1]

FACT(ok, FELICA_OK == 0);
FACT(n1, FELICA_TOO_MANY_ENTRIES == 1);
FACT(n2, FELICA_SAME_KEY_TWICE == 2);
FACT(n3, FELICA_NO_NODES == 3);
FACT(n4, FELICA_KEY_MISSING == 4);
FACT(n5, FELICA_OTHER_ALGORITHM == 5);
FACT(n6, FELICA_INDIVIDUAL_KEY_WITH_DES == 6);
FACT(n7, FELICA_DES_WITHOUT_AREA == 7);
FACT(n8, FELICA_DES_WITHOUT_KEYED_SERVICE == 8);
FACT(n9, FELICA_NUMBER_EXHAUSTED == 9);
FACT(n10, FELICA_NOT_WHOLE_BLOCKS == 10);
FACT(n11, FELICA_TOO_SHORT == 11);
FACT(n12, FELICA_TOO_LONG == 12);
FACT(n13, FELICA_MAC_DIFFERS == 13);
FACT(n14, FELICA_ID_DIFFERS == 14);
FACT(n15, FELICA_NUMBER_NOT_ABOVE == 15);
FACT(n16, FELICA_OUTPUT_TOO_SMALL == 16);
FACT(n17, FELICA_BAD_MARK_OR_LENGTH == 17);
FACT(des, FELICA_SCHEME_DES == 1);
FACT(aes, FELICA_SCHEME_AES128 == 2);
FACT(by_keys, FELICA_SCHEME_BY_KEYS == 0);
FACT(entry, FELICA_KEY_ENTRY_SIZE == 19);
FACT(algorithm_des, FELICA_ALGORITHM_DES == 1);
FACT(algorithm_aes, FELICA_ALGORITHM_AES128 == 2);
FACT(node, FELICA_NODE_SIZE == 2);
FACT(system, FELICA_NODE_SYSTEM == 0xFFFF);
FACT(keys, FELICA_KEYS_MAX == 128);
FACT(areas, FELICA_AREAS_MAX == 32);
FACT(services, FELICA_SERVICES_MAX == 32);
FACT(individual, FELICA_INDIVIDUAL_KEY_SIZE == 16);
FACT(des_derived, FELICA_DES_DERIVED_KEYS_SIZE == 16);
FACT(aes_derived, FELICA_AES_DERIVED_KEYS_SIZE == 32);
FACT(idm, FELICA_IDM_SIZE == 8);
FACT(third, FELICA_CHALLENGE_3C_SIZE == 4);
FACT(des_block, FELICA_DES_BLOCK_SIZE == 8);
FACT(aes_block, FELICA_AES_BLOCK_SIZE == 16);
FACT(session_keys, FELICA_AES_SESSION_KEYS_SIZE == 32);
FACT(id, FELICA_ID_SIZE == 6);
FACT(key, FELICA_DES_KEY_SIZE == 8);
FACT(credentials, FELICA_AES_CREDENTIALS_SIZE == 36);
FACT(des_payload, FELICA_DES_PAYLOAD_MAX == 232);
FACT(aes_payload, FELICA_AES_PAYLOAD_MAX == 243);
FACT(authentication2, FELICA_AUTHENTICATION2_PADDED_MAX == 240);
FACT(sealed, FELICA_SEALED_MAX == 253);
FACT(frame, FELICA_FRAME_MAX == 255);
FACT(package, FELICA_PACKAGE_MAX == 4096);
FACT(session, FELICA_SESSION_SIZE == 180);
FACT(version, FELICA_SESSION_VERSION == 2);
FACT(ceiling, FELICA_CEILING_NONE == 0xFFFF);
FACT(session_nodes, FELICA_SESSION_NODES_MAX == 64);
FACT(not_listed, FELICA_NODE_NOT_LISTED == 64);

// The sizes by a rule are constants: an array can have them, and they are those of the request's table.
static uint8_t des_sealed[FELICA_DES_SEALED_SIZE(FELICA_DES_PAYLOAD_MAX)];
static uint8_t aes_sealed[FELICA_AES_SEALED_SIZE(FELICA_AES_PAYLOAD_MAX)];

FACT(des_sealed, sizeof des_sealed == 248);
FACT(des_sealed_0, FELICA_DES_SEALED_SIZE(0) == 16);
FACT(des_sealed_1, FELICA_DES_SEALED_SIZE(1) == 24);
FACT(des_sealed_8, FELICA_DES_SEALED_SIZE(8) == 24);
FACT(des_sealed_9, FELICA_DES_SEALED_SIZE(9) == 32);
FACT(des_sealed_of, 2 * FELICA_DES_SEALED_SIZE(8 | 1) == 64);
FACT(aes_sealed, sizeof aes_sealed == 253);
FACT(aes_sealed_0, FELICA_AES_SEALED_SIZE(0) == 10);
FACT(aes_sealed_1, FELICA_AES_SEALED_SIZE(1) == 11);
FACT(aes_sealed_of, 2 * FELICA_AES_SEALED_SIZE(8 | 1) == 38);

// For every payload they are the length of the forecast, and an array of that size takes the sealing of the longest.
static int sizes(void)
{
    static const uint8_t zeros[FELICA_AES_PAYLOAD_MAX] = {0};
    size_t n;

    for (n = 0; n <= FELICA_DES_PAYLOAD_MAX; n++) {
        if (felica_forecast(FELICA_SCHEME_DES, n) != (uint64_t)FELICA_DES_SEALED_SIZE(n) << 16) {
            return 0;
        }
    }
    for (n = 0; n <= FELICA_AES_PAYLOAD_MAX; n++) {
        if (felica_forecast(FELICA_SCHEME_AES128, n) != (uint64_t)FELICA_AES_SEALED_SIZE(n) << 16) {
            return 0;
        }
    }
    return felica_encrypt_command(FELICA_SCHEME_DES, 0, 0, zeros, FELICA_ID_SIZE, zeros, FELICA_DES_KEY_SIZE, zeros, FELICA_DES_PAYLOAD_MAX,
                                  des_sealed, sizeof des_sealed) == (uint64_t)sizeof des_sealed << 16 &&
           felica_encrypt_command(FELICA_SCHEME_AES128, 0, 0, zeros, FELICA_ID_SIZE, zeros, FELICA_AES_CREDENTIALS_SIZE, zeros,
                                  FELICA_AES_PAYLOAD_MAX, aes_sealed, sizeof aes_sealed) == (uint64_t)sizeof aes_sealed << 16;
}

static int accessors(void)
{
    const uint64_t answer = (uint64_t)0x9B78 << 48 | (uint64_t)0x1234 << 32 | (uint64_t)0xABCD << 16 | (uint64_t)0xEF << 8 | 0x56;

    return felica_answer_number(answer) == 0x56 && felica_answer_scheme(answer) == 0xEF && felica_answer_length(answer) == 0xABCD &&
           felica_answer_index(answer) == 0xABCD && felica_answer_count(answer) == 0xABCD &&
           felica_answer_transaction_number(answer) == 0x1234 && felica_answer_node(answer) == 0x1234 &&
           felica_answer_ceiling(answer) == 0x1234 && felica_answer_padding(answer) == 0x78;
}

// A session of one byte: 17 from each.
static int session_calls(void)
{
    const uint8_t in[1] = {1};
    uint8_t session[1] = {1}, out[1];
    const uint64_t bad = FELICA_BAD_MARK_OR_LENGTH;

    return felica_session_new(1, 0, in, 1, in, 1, in, 1, session, 1) == bad &&
           felica_session_new_with_ceiling(1, 0, 0, in, 1, in, 1, in, 1, session, 1) == bad &&
           felica_session_increment_transaction_number(session, 1) == bad &&
           felica_session_set_transaction_number(session, 1, 0) == bad &&
           felica_session_encrypt_command(in, 1, 0, in, 1, out, 1) == bad &&
           felica_session_apply_response(session, 1, 0, in, 1, out, 1) == bad &&
           felica_session_node_index(in, 1, 0) == bad &&
           felica_session_transaction_number(in, 1) == bad &&
           felica_session_ceiling(in, 1) == bad &&
           felica_session_turned_away(in, 1) == bad &&
           felica_session_scheme(in, 1) == bad &&
           felica_session_transaction_id(in, 1, out, 1) == bad &&
           felica_session_nodes(in, 1, out, 1) == bad;
}

// An ID, IDm, key, list or credentials of one byte: 17 from each.
static int calls(void)
{
    const uint8_t in[1] = {0};
    uint8_t out[1];
    const uint64_t bad = FELICA_BAD_MARK_OR_LENGTH;

    return felica_encrypt_command(1, 0, 0, in, 1, in, 1, in, 1, out, 1) == bad &&
           felica_decrypt_response(2, 0, in, 1, in, 1, in, 1, out, 1) == bad &&
           felica_build_secure_response_frame(1, 0, 0, in, 1, in, 1, in, 1, out, 1) == bad &&
           felica_forecast(3, 1) == bad &&
           felica_decrypt_response_trimmed_des(0, in, 1, in, 1, in, 1, out, 1) == bad &&
           felica_encrypt_authentication2_payload_des(in, 1, in, 1, out, 1) == bad &&
           felica_decrypt_authentication2_payload_des(in, 1, in, 1, out, 1) == bad &&
           felica_decrypt_authentication2_payload_v2_aes128(in, 1, in, 1, in, 1, out, 1) == bad &&
           felica_generate_registration_package_des(in, 1, in, 1, out, 1) == bad &&
           felica_derive_auth_keys(0, in, 1, in, 0, in, 0, in, 0, out, 1) == bad &&
           felica_search_key(in, 1, 0, 1) == bad &&
           felica_encrypt_challenge1a(1, in, 1, in, 1, in, 1, out, 1) == bad &&
           felica_decrypt_challenge1a(2, in, 1, in, 1, in, 1, out, 1) == bad &&
           felica_encrypt_challenge1b(1, in, 1, in, 1, in, 1, in, 1, out, 1) == bad &&
           felica_verify_challenge1b(2, in, 1, in, 1, in, 1, in, 1, in, 1) == bad &&
           felica_encrypt_challenge2a(1, in, 1, in, 1, in, 1, in, 1, out, 1) == bad &&
           felica_decrypt_challenge2a(2, in, 1, in, 1, in, 1, in, 1, out, 1) == bad &&
           felica_encrypt_challenge2b(1, in, 1, in, 1, in, 1, out, 1) == bad &&
           felica_verify_challenge2b(2, in, 1, in, 1, in, 1, in, 1) == bad &&
           felica_derive_secure_session_keys(in, 1, out, 1) == bad;
}

int main(void)
{
    return accessors() && sizes() && calls() && session_calls() ? 0 : 1;
}
