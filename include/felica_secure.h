// The FeliCa protocol's secure session, for C99 and C++11: key derivation, the search of a key list, the challenges of an authentication, AES
// session keys; sealed commands and responses in both schemes, response frames, Authentication 2, the DES registration package; the session.
// The archive is libfelica_secure.a, for x86-64 Linux.
//
// Proved, for every call whose buffers are as the caller's part below says: the call ends, and its answer and its whole output are those
// of a definition, which docs/STATUS.md names for each function.
//
// The caller's part, which no proof can see:
// - Each pointer is valid for the length that follows it: readable, and writable for the output.
// - The output overlaps no other buffer of the call.
// - NULL with length 0 is tested (tests/c), not promised.
//
// The archive keeps no state, allocates nothing and calls nothing but memcpy and memset. It is reentrant. It does not wipe its stack: key
// schedules and plain text stay there after the call. It looks tables up by secret bytes, so its time can reveal them. Comparisons of MACs,
// challenges and transaction IDs read all bytes. docs/GUIDE.md has more on both.
#ifndef FELICA_SECURE_H
#define FELICA_SECURE_H

#include <stddef.h>
#include <stdint.h>

#ifdef __cplusplus
extern "C" {
#endif

// ---- marks and sizes

#define FELICA_SCHEME_DES 1
#define FELICA_SCHEME_AES128 2
// For derivation only: the keys choose the scheme.
#define FELICA_SCHEME_BY_KEYS 0

// A key entry: node 2 (low byte first), algorithm 1, key 16, of which DES uses the first 8.
#define FELICA_KEY_ENTRY_SIZE 19
#define FELICA_ALGORITHM_DES 1
#define FELICA_ALGORITHM_AES128 2
// An area or a service: low byte first.
#define FELICA_NODE_SIZE 2
// The node whose DES key is the system key.
#define FELICA_NODE_SYSTEM 0xFFFF
// The most entries of each list.
#define FELICA_KEYS_MAX 128
#define FELICA_AREAS_MAX 32
#define FELICA_SERVICES_MAX 32
// An individual key, where there is one.
#define FELICA_INDIVIDUAL_KEY_SIZE 16

// Derived keys: group and user key with DES, group and individual key with AES.
#define FELICA_DES_DERIVED_KEYS_SIZE 16
#define FELICA_AES_DERIVED_KEYS_SIZE 32
#define FELICA_IDM_SIZE 8
#define FELICA_CHALLENGE_3C_SIZE 4
// A block: random 1, random 2, and challenges 1A, 1B, 2A, 2B.
#define FELICA_DES_BLOCK_SIZE 8
#define FELICA_AES_BLOCK_SIZE 16
// AES session keys: cipher key 16, MAC key 16.
#define FELICA_AES_SESSION_KEYS_SIZE 32

// A transaction ID.
#define FELICA_ID_SIZE 6
// A DES session key: the credentials of scheme DES.
#define FELICA_DES_KEY_SIZE 8
// Cipher key 16, MAC key 16, Challenge 3C 4: the credentials of scheme AES.
#define FELICA_AES_CREDENTIALS_SIZE 36

// The longest payload that can be sealed.
#define FELICA_DES_PAYLOAD_MAX 232
#define FELICA_AES_PAYLOAD_MAX 243
// The size of the sealed data of a payload of n bytes, with n up to the longest: the length that felica_forecast gives, as a constant if n is
// one. With DES n + 8 is brought up to a multiple of 8, then come 8 more.
#define FELICA_DES_SEALED_SIZE(n) (((n) + 8 + 7) / 8 * 8 + 8)
#define FELICA_AES_SEALED_SIZE(n) ((n) + 10)
// The longest DES Authentication 2 payload, once padded to whole blocks of 8 bytes.
#define FELICA_AUTHENTICATION2_PADDED_MAX 240
// The longest data that can be opened.
#define FELICA_SEALED_MAX 253
// The longest response frame.
#define FELICA_FRAME_MAX 255
// The longest plain registration package. The package made of it is 8 bytes longer.
#define FELICA_PACKAGE_MAX 4096

// A session is bytes that the caller keeps: how many, and the value of the first.
#define FELICA_SESSION_SIZE 180
#define FELICA_SESSION_VERSION 2
// The ceiling of a session that is made without one.
#define FELICA_CEILING_NONE 0xFFFF
// The most nodes of a session.
#define FELICA_SESSION_NODES_MAX 64
// What felica_session_node_index gives for a node that the session does not have.
#define FELICA_NODE_NOT_LISTED 64

// ---- numbers. docs/NUMBERS.md says when each is given, and what to do. The first condition that holds decides, in the order that stands
// at each function.

#define FELICA_OK 0
#define FELICA_TOO_MANY_ENTRIES 1
#define FELICA_SAME_KEY_TWICE 2
#define FELICA_NO_NODES 3
#define FELICA_KEY_MISSING 4
#define FELICA_OTHER_ALGORITHM 5
#define FELICA_INDIVIDUAL_KEY_WITH_DES 6
#define FELICA_DES_WITHOUT_AREA 7
#define FELICA_DES_WITHOUT_KEYED_SERVICE 8
#define FELICA_NUMBER_EXHAUSTED 9
#define FELICA_NOT_WHOLE_BLOCKS 10
#define FELICA_TOO_SHORT 11
#define FELICA_TOO_LONG 12
#define FELICA_MAC_DIFFERS 13
#define FELICA_ID_DIFFERS 14
#define FELICA_NUMBER_NOT_ABOVE 15
#define FELICA_OUTPUT_TOO_SMALL 16
#define FELICA_BAD_MARK_OR_LENGTH 17

// ---- the answer is one number of 64 bits. Bits 56 to 63 are 0. Read it by these functions: two acceptances of the same length can differ.

// Bits 0 to 7: FELICA_OK, or the number of the refusal. A call that was turned down has written nothing to its output, and every other bit
// of its answer is 0, but for the node with FELICA_KEY_MISSING.
static inline uint8_t felica_answer_number(uint64_t answer)
{
    return (uint8_t)(answer & 0xFF);
}

// Bits 8 to 15: the scheme mark, 1 or 2, that an accepted derivation used or that a session has (felica_session_scheme); with felica_search_key
// the algorithm, of the same numbers, if the entry is there; else 0.
static inline uint8_t felica_answer_scheme(uint64_t answer)
{
    return (uint8_t)((answer >> 8) & 0xFF);
}

// Bits 16 to 31: how many bytes were written, from the output's first byte on. The rest of the output is unchanged.
static inline uint16_t felica_answer_length(uint64_t answer)
{
    return (uint16_t)((answer >> 16) & 0xFFFF);
}

// The same bits with felica_session_node_index: a node's place, or FELICA_NODE_NOT_LISTED.
static inline uint16_t felica_answer_index(uint64_t answer)
{
    return (uint16_t)((answer >> 16) & 0xFFFF);
}

// The same bits with felica_session_turned_away: how many responses were turned away; with felica_search_key: how many entries were looked at.
static inline uint16_t felica_answer_count(uint64_t answer)
{
    return (uint16_t)((answer >> 16) & 0xFFFF);
}

// Bits 32 to 47: the transaction number of what was opened, or of a session; else 0.
static inline uint16_t felica_answer_transaction_number(uint64_t answer)
{
    return (uint16_t)((answer >> 32) & 0xFFFF);
}

// The same bits with FELICA_KEY_MISSING, which derivation alone gives: the node that has no key.
static inline uint16_t felica_answer_node(uint64_t answer)
{
    return (uint16_t)((answer >> 32) & 0xFFFF);
}

// The same bits with felica_session_ceiling: the session's ceiling.
static inline uint16_t felica_answer_ceiling(uint64_t answer)
{
    return (uint16_t)((answer >> 32) & 0xFFFF);
}

// Bits 48 to 55: how many bytes of padding an accepted sealing added, 0 to 7 with DES, 0 with AES. Four calls seal: felica_encrypt_command,
// felica_session_encrypt_command, felica_build_secure_response_frame and felica_encrypt_authentication2_payload_des. Every other call has 0 here.
static inline uint8_t felica_answer_padding(uint64_t answer)
{
    return (uint8_t)((answer >> 48) & 0xFF);
}

// ---- derivation, and the search of a key list

// Derives the keys of an authentication from key entries and from the areas and services of the authentication. The mark forces DES or AES.
// With FELICA_SCHEME_BY_KEYS the target's keys choose, AES before DES. The target is the last service that is not key-free, else the last
// service, else the last area. A service is key-free if its low six bits are odd and lie in 9 to 23. An individual key of 0 bytes is none;
// with AES it counts as sixteen zeros.
// DES: the system key is encrypted under each area key (group key), then under the key of each service that is not key-free (user key).
// Writes group and user key, 16 bytes. AES: 01 01, thirteen 00, 80 is encrypted under each area key and service key (group key). Writes
// group and individual key, 32 bytes. The answer has the scheme that was used.
// Refusals: 17 (mark; a list that is no whole number of entries; an algorithm other than 1 and 2 in any entry; an individual key of
// other than 0 and 16 bytes), 1, 2; with FELICA_SCHEME_BY_KEYS 3, 4 (the target has no key); then
// DES: 6, 7, 8, and 4 or 5 for the system, the areas, the services that are not key-free, in order; 16.
// AES: 4 or 5 for the areas, the services, in order; 3; 16.
// With 4 the answer has the node.
uint64_t felica_derive_auth_keys(uint8_t mark,
                                 const uint8_t *keys, size_t keys_len,
                                 const uint8_t *areas, size_t areas_len,
                                 const uint8_t *services, size_t services_len,
                                 const uint8_t *individual, size_t individual_len,
                                 uint8_t *out, size_t out_len);

// Searches key entries for that of a node and an algorithm, FELICA_ALGORITHM_DES or FELICA_ALGORITHM_AES128. The search ends at the first such
// entry, and no byte of a key is read. The answer has how many entries were looked at (felica_answer_count), which is the entry's place
// counted from 1, or all entries where it is not there; and the algorithm if the entry is there, else 0 (felica_answer_scheme). An entry that is
// not there is no refusal. Where the entry is there, and only there, its key is the 16 bytes from keys[(count - 1) * FELICA_KEY_ENTRY_SIZE + 3] on,
// of which DES uses the first 8. An entry of another algorithm than 1 and 2 is not the one sought, and a key that stands twice is found at its
// first place: derivation refuses such lists, this does not.
// Refusals: 17 (a list that is no whole number of entries; a sought algorithm other than 1 and 2, as FELICA_SCHEME_BY_KEYS), 1 (over 128
// entries).
uint64_t felica_search_key(const uint8_t *keys, size_t keys_len, uint16_t node, uint8_t algorithm);

// ---- challenges, both schemes. Keys: what derivation wrote, FELICA_DES_DERIVED_KEYS_SIZE or FELICA_AES_DERIVED_KEYS_SIZE bytes as the
// scheme mark says. IDm: FELICA_IDM_SIZE bytes. A random and a challenge are one block each: 8 bytes with DES, 16 with AES. Challenge 3C:
// FELICA_CHALLENGE_3C_SIZE bytes under both marks; DES does not use it.
// Making and reading write one block. Refusals: 17 (mark, any of these lengths), 16.
// Checking writes nothing. Refusals: 17 (mark, any of these lengths), 13 (the challenge is not the one that making gives).

// Makes 1A: the reader, from its random 1.
uint64_t felica_encrypt_challenge1a(uint8_t scheme,
                                    const uint8_t *keys, size_t keys_len,
                                    const uint8_t *idm, size_t idm_len,
                                    const uint8_t *random_1, size_t random_1_len,
                                    uint8_t *out, size_t out_len);

// Reads 1A: the card. Writes random 1.
uint64_t felica_decrypt_challenge1a(uint8_t scheme,
                                    const uint8_t *keys, size_t keys_len,
                                    const uint8_t *idm, size_t idm_len,
                                    const uint8_t *challenge_1a, size_t challenge_1a_len,
                                    uint8_t *out, size_t out_len);

// Makes 1B: the card, from the random 1 that it read.
uint64_t felica_encrypt_challenge1b(uint8_t scheme,
                                    const uint8_t *keys, size_t keys_len,
                                    const uint8_t *idm, size_t idm_len,
                                    const uint8_t *challenge_3c, size_t challenge_3c_len,
                                    const uint8_t *random_1, size_t random_1_len,
                                    uint8_t *out, size_t out_len);

// Checks 1B: the reader, against its random 1.
uint64_t felica_verify_challenge1b(uint8_t scheme,
                                   const uint8_t *keys, size_t keys_len,
                                   const uint8_t *idm, size_t idm_len,
                                   const uint8_t *challenge_3c, size_t challenge_3c_len,
                                   const uint8_t *random_1, size_t random_1_len,
                                   const uint8_t *challenge_1b, size_t challenge_1b_len);

// Makes 2A: the card, from its random 2.
uint64_t felica_encrypt_challenge2a(uint8_t scheme,
                                    const uint8_t *keys, size_t keys_len,
                                    const uint8_t *idm, size_t idm_len,
                                    const uint8_t *challenge_3c, size_t challenge_3c_len,
                                    const uint8_t *random_2, size_t random_2_len,
                                    uint8_t *out, size_t out_len);

// Reads 2A: the reader. Writes random 2.
uint64_t felica_decrypt_challenge2a(uint8_t scheme,
                                    const uint8_t *keys, size_t keys_len,
                                    const uint8_t *idm, size_t idm_len,
                                    const uint8_t *challenge_3c, size_t challenge_3c_len,
                                    const uint8_t *challenge_2a, size_t challenge_2a_len,
                                    uint8_t *out, size_t out_len);

// Makes 2B: the reader, from the random 2 that it read.
uint64_t felica_encrypt_challenge2b(uint8_t scheme,
                                    const uint8_t *keys, size_t keys_len,
                                    const uint8_t *idm, size_t idm_len,
                                    const uint8_t *random_2, size_t random_2_len,
                                    uint8_t *out, size_t out_len);

// Checks 2B: the card, against its random 2.
uint64_t felica_verify_challenge2b(uint8_t scheme,
                                   const uint8_t *keys, size_t keys_len,
                                   const uint8_t *idm, size_t idm_len,
                                   const uint8_t *random_2, size_t random_2_len,
                                   const uint8_t *challenge_2b, size_t challenge_2b_len);

// Derives the AES session keys from random 2, FELICA_AES_BLOCK_SIZE bytes. Writes cipher key and MAC key, 32 bytes. These and Challenge 3C,
// one behind the other, are the AES credentials below.
// Refusals: 17 (random 2), 16.
uint64_t felica_derive_secure_session_keys(const uint8_t *random_2, size_t random_2_len,
                                           uint8_t *out, size_t out_len);

// ---- sealed data, both schemes. Credentials: FELICA_DES_KEY_SIZE or FELICA_AES_CREDENTIALS_SIZE bytes, as the scheme mark says.

// Seals a command with its code and transaction number. Writes the sealed data, without length byte and code: for a payload of n bytes,
// n + 10 with AES; with DES n + 8, padded to whole blocks of 8 bytes, and 8. The answer has the padding (felica_answer_padding): with DES
// the 0 to 7 bytes that n lacks of a multiple of 8, so that n is the length less 16 less the padding; with AES 0, and n is the length less 10.
// Refusals: 17 (mark, ID, credentials), 12 (payload over 232 with DES, 243 with AES), 16.
uint64_t felica_encrypt_command(uint8_t scheme, uint8_t code, uint16_t number,
                                const uint8_t *id, size_t id_len,
                                const uint8_t *credentials, size_t credentials_len,
                                const uint8_t *payload, size_t payload_len,
                                uint8_t *out, size_t out_len);

// Opens a sealed command or response. Of a response frame, pass what follows the length byte and the code. Writes the payload, with DES
// including its padding: data_len - 10 bytes with AES, data_len - 16 with DES. The answer has the transaction number; the caller compares it.
// Refusals, DES: 17 (mark, ID, credentials), 10, 11 (data under 16), 12 (data over 253), 13, 14, 16.
// Refusals, AES: 17, 11 (data under 10), 12 (data over 253), 13, 16.
uint64_t felica_decrypt_response(uint8_t scheme, uint8_t code,
                                 const uint8_t *id, size_t id_len,
                                 const uint8_t *credentials, size_t credentials_len,
                                 const uint8_t *data, size_t data_len,
                                 uint8_t *out, size_t out_len);

// Makes a response frame. Writes a length byte, which counts itself too, the code, then what felica_encrypt_command writes. The answer has the
// padding that felica_encrypt_command gives: the payload's length is the frame's less 18 less the padding with DES, less 12 with AES.
// Refusals: those of felica_encrypt_command; 16 is about the whole frame.
uint64_t felica_build_secure_response_frame(uint8_t scheme, uint8_t code, uint16_t number,
                                            const uint8_t *id, size_t id_len,
                                            const uint8_t *credentials, size_t credentials_len,
                                            const uint8_t *payload, size_t payload_len,
                                            uint8_t *out, size_t out_len);

// Forecasts the size of the sealed data of a payload of payload_len bytes: the answer's length is exactly how many bytes
// felica_encrypt_command and felica_session_encrypt_command write, so an output of that size takes them, and one of a byte less gives 16. A
// response frame takes 2 bytes more. Any payload_len may be asked for. Writes nothing. For an array's size there are FELICA_DES_SEALED_SIZE and
// FELICA_AES_SEALED_SIZE.
// Refusals: 17 (mark), 12 (DES payload over 232, AES payload over 243).
uint64_t felica_forecast(uint8_t scheme, size_t payload_len);

// ---- DES

// Opens DES data as felica_decrypt_response does, and drops padding: if the payload's last byte v is 1 to 7 and its last v bytes all equal
// v, they are dropped, once; else nothing is. A record in whole blocks that truly ends in 01 (or in 02 02, .. in seven 07) still loses these
// bytes, since from the bytes alone nobody can tell. Who sends such records uses the untrimmed opening, felica_decrypt_response, and a length
// of his own.
// Refusals: 17 (ID, key), 10, 11 (data under 16), 12 (data over 253), 13, 14, 16 (about the trimmed payload).
uint64_t felica_decrypt_response_trimmed_des(uint8_t code,
                                             const uint8_t *id, size_t id_len,
                                             const uint8_t *key, size_t key_len,
                                             const uint8_t *data, size_t data_len,
                                             uint8_t *out, size_t out_len);

// Seals a DES Authentication 2 payload, under code 0x13 and with no header. Writes it padded to whole blocks of 8 bytes, and 8. The answer has
// the padding: the 0 to 7 bytes that the payload lacks of a multiple of 8. The payload's length is the length written less 8 less the padding.
// Refusals: 17 (key), 12 (over 240 once padded), 16.
uint64_t felica_encrypt_authentication2_payload_des(const uint8_t *key, size_t key_len,
                                                    const uint8_t *payload, size_t payload_len,
                                                    uint8_t *out, size_t out_len);

// Opens a DES Authentication 2 response. Writes all but the MAC, padding included: data_len - 8 bytes.
// Refusals: 17 (key), 10, 12 (data over 253), 13 (also for 0 and for 8 bytes), 16.
uint64_t felica_decrypt_authentication2_payload_des(const uint8_t *key, size_t key_len,
                                                    const uint8_t *data, size_t data_len,
                                                    uint8_t *out, size_t out_len);

// Makes a DES registration package. Writes plain_len + 8 bytes.
// Refusals: 17 (key), 10 (also for 0 bytes), 12 (over 4,096), 16.
uint64_t felica_generate_registration_package_des(const uint8_t *key, size_t key_len,
                                                  const uint8_t *plain, size_t plain_len,
                                                  uint8_t *out, size_t out_len);

// ---- AES

// Opens an AES Authentication 2 response: felica_decrypt_response with AES and code 0x43. Writes data_len - 10 bytes.
// Refusals: 17 (ID, credentials), 11 (data under 10), 12 (data over 253), 13, 16.
uint64_t felica_decrypt_authentication2_payload_v2_aes128(const uint8_t *id, size_t id_len,
                                                          const uint8_t *credentials, size_t credentials_len,
                                                          const uint8_t *data, size_t data_len,
                                                          uint8_t *out, size_t out_len);

// ---- the session after an authentication: transaction number, ceiling, transaction ID, scheme, credentials, nodes, and how many responses
// were turned away. It is FELICA_SESSION_SIZE bytes. The caller keeps them between calls, and passes the bytes that the last call left. They hold
// secrets. The library knows nothing of a session but these bytes: an older copy would reuse transaction numbers, so keep exactly one copy.
// The first byte is the version of the layout.
// Each call here but the first two answers 17 where the bytes are no session: another size than FELICA_SESSION_SIZE, another first byte than
// FELICA_SESSION_VERSION, an unknown scheme mark, or a node count over FELICA_SESSION_NODES_MAX. A call that is turned down leaves the bytes
// as they were, but for the count.

// Makes a session from its number, ID, credentials (FELICA_DES_KEY_SIZE or FELICA_AES_CREDENTIALS_SIZE bytes, as the scheme mark says) and
// nodes, of FELICA_NODE_SIZE bytes each. Writes the session. The output has exactly FELICA_SESSION_SIZE bytes.
// Refusals: 17 (mark, ID, credentials, nodes that are no whole number of entries, the output), 1 (over 64 nodes).
uint64_t felica_session_new(uint8_t scheme, uint16_t number,
                            const uint8_t *id, size_t id_len,
                            const uint8_t *credentials, size_t credentials_len,
                            const uint8_t *nodes, size_t nodes_len,
                            uint8_t *session, size_t session_len);

// Makes a session with a ceiling: as felica_session_new does, whose sessions have FELICA_CEILING_NONE. Once the number is at or above the ceiling,
// the step refuses; no other call goes by the ceiling, and none changes it. Any ceiling is taken, and the number may be at or above it. It
// limits this session, not the card. A response that is taken raises the number too: from number 0, with a card that answers each command with
// the next number, ceiling c lets (c + 1) / 2 commands through, in whole numbers; with no responses, c.
// Refusals: as felica_session_new.
uint64_t felica_session_new_with_ceiling(uint8_t scheme, uint16_t number, uint16_t ceiling,
                                         const uint8_t *id, size_t id_len,
                                         const uint8_t *credentials, size_t credentials_len,
                                         const uint8_t *nodes, size_t nodes_len,
                                         uint8_t *session, size_t session_len);

// Steps the number. Call it before each command is sealed. The answer has the new number.
// Refusals: 17, 9 (the number is at or above the ceiling).
uint64_t felica_session_increment_transaction_number(uint8_t *session, size_t session_len);

// Sets the number, whatever it was; it may go back, and it may go to the ceiling and past it.
// Refusal: 17.
uint64_t felica_session_set_transaction_number(uint8_t *session, size_t session_len, uint16_t number);

// Seals a command with the session's number, ID and credentials, as felica_encrypt_command does; the answer has the padding too. It does not
// step the number: call felica_session_increment_transaction_number first. If the sealing is then refused, the number is spent all the same.
// Refusals: 17, 12 (payload over 232 with DES, 243 with AES), 16.
uint64_t felica_session_encrypt_command(const uint8_t *session, size_t session_len, uint8_t code,
                                        const uint8_t *payload, size_t payload_len,
                                        uint8_t *out, size_t out_len);

// Opens a response (what follows the length byte and the code) as felica_decrypt_response does. Its number has to be above the session's,
// which is then set to it, past the ceiling too. Refusals from 10 to 15 are counted, up to 65,535; 16 and 17 are not.
// Refusals, DES: 17, 10, 11, 12, 13, 14, 15, 16. Refusals, AES: 17, 11, 12, 13, 15, 16.
uint64_t felica_session_apply_response(uint8_t *session, size_t session_len, uint8_t code,
                                       const uint8_t *data, size_t data_len,
                                       uint8_t *out, size_t out_len);

// The first place of a node in the session's list, from 0 (felica_answer_index); FELICA_NODE_NOT_LISTED where it is not in it.
// Refusal: 17.
uint64_t felica_session_node_index(const uint8_t *session, size_t session_len, uint16_t node);

// The session's number (felica_answer_transaction_number).
// Refusal: 17.
uint64_t felica_session_transaction_number(const uint8_t *session, size_t session_len);

// The session's ceiling (felica_answer_ceiling).
// Refusal: 17.
uint64_t felica_session_ceiling(const uint8_t *session, size_t session_len);

// How many responses felica_session_apply_response turned away with 10 to 15 since the making (felica_answer_count), at most 65,535.
// Refusal: 17.
uint64_t felica_session_turned_away(const uint8_t *session, size_t session_len);

// The session's scheme mark (felica_answer_scheme).
// Refusal: 17.
uint64_t felica_session_scheme(const uint8_t *session, size_t session_len);

// Writes the session's transaction ID, FELICA_ID_SIZE bytes.
// Refusals: 17, 16.
uint64_t felica_session_transaction_id(const uint8_t *session, size_t session_len,
                                       uint8_t *out, size_t out_len);

// Writes the session's nodes, FELICA_NODE_SIZE bytes each.
// Refusals: 17, 16.
uint64_t felica_session_nodes(const uint8_t *session, size_t session_len,
                              uint8_t *out, size_t out_len);

#ifdef __cplusplus
}
#endif

#endif
