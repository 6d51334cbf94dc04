#include "parts.h"

#include "check.h"
#include "layout.h"

#include "../../include/felica_secure.h"

#include <string.h>
#include <sys/mman.h>

// A length that would be a good one if it were cut to 32 bits.
#define OVER ((size_t)0x100000000u)

// Of a session each length, and what the answers leave of it.
static void sessions_over(const uint8_t *big, uint8_t *out)
{
    const uint8_t *id = sample(1, 6).at, *key = sample(2, 8).at;
    uint8_t *read_only = (uint8_t *)(uintptr_t)big;
    uint8_t session[180];
    size_t n = OVER + 180;

    check(felica_session_new(1, 5, big, OVER + 6, key, 8, id, 2, out, 180) == 17, "ID, new session");
    check(felica_session_new(1, 5, id, 6, big, OVER + 8, id, 2, out, 180) == 17, "credentials, new session");
    check(felica_session_new(1, 5, id, 6, key, 8, big, OVER + 2, out, 180) == 1, "nodes, new session");
    check(felica_session_new(1, 5, id, 6, key, 8, big, OVER + 1, out, 180) == 17, "nodes and a half, new session");
    check(felica_session_new(1, 5, id, 6, key, 8, id, 2, read_only, n) == 17, "new session");
    check(felica_session_new_with_ceiling(1, 5, 9, big, OVER + 6, key, 8, id, 2, out, 180) == 17, "ID, new session with a ceiling");
    check(felica_session_new_with_ceiling(1, 5, 9, id, 6, big, OVER + 8, id, 2, out, 180) == 17, "credentials, the same");
    check(felica_session_new_with_ceiling(1, 5, 9, id, 6, key, 8, big, OVER + 2, out, 180) == 1, "nodes, the same");
    check(felica_session_new_with_ceiling(1, 5, 9, id, 6, key, 8, id, 2, read_only, n) == 17, "new session with a ceiling");
    check(felica_session_increment_transaction_number(read_only, n) == 17, "session, step");
    check(felica_session_set_transaction_number(read_only, n, 1) == 17, "session, set");
    check(felica_session_encrypt_command(big, n, 0, id, 6, out, 5000) == 17, "session, sealing");
    check(felica_session_apply_response(read_only, n, 0, id, 6, out, 5000) == 17, "session, response");
    check(felica_session_node_index(big, n, 0) == 17, "session, index");
    check(felica_session_transaction_number(big, n) == 17, "session, number");
    check(felica_session_ceiling(big, n) == 17, "session, ceiling");
    check(felica_session_turned_away(big, n) == 17, "session, count");
    check(felica_session_scheme(big, n) == 17, "session, scheme");
    check(felica_session_transaction_id(big, n, out, 5000) == 17, "session, ID");
    check(felica_session_nodes(big, n, out, 5000) == 17, "session, nodes");

    check(felica_session_new(1, 5, id, 6, key, 8, id, 2, session, 180) == (uint64_t)180 << 16, "a session");
    check(felica_session_encrypt_command(session, 180, 0, big, OVER + 16, out, 5000) == 12, "payload, session");
    check(felica_session_apply_response(session, 180, 0, big, OVER + 16, out, 5000) == 12, "response, session");
    check(felica_session_turned_away(session, 180) == 1 << 16, "count");
}

static void frames_over(const uint8_t *big, uint8_t *out)
{
    const uint8_t *id = sample(1, 6).at, *key = sample(2, 8).at, *credentials = sample(3, 36).at;

    // a payload, data, a package
    check(felica_encrypt_command(1, 0, 1, id, 6, key, 8, big, OVER + 16, out, 5000) == 12, "payload, DES");
    check(felica_encrypt_command(2, 0, 1, id, 6, credentials, 36, big, OVER + 16, out, 5000) == 12, "payload, AES");
    check(felica_build_secure_response_frame(1, 0, 1, id, 6, key, 8, big, OVER + 16, out, 5000) == 12, "response, DES");
    check(felica_build_secure_response_frame(2, 0, 1, id, 6, credentials, 36, big, OVER + 16, out, 5000) == 12, "response, AES");
    check(felica_decrypt_response(1, 0, id, 6, key, 8, big, OVER + 16, out, 5000) == 12, "data, DES");
    check(felica_decrypt_response(2, 0, id, 6, credentials, 36, big, OVER + 16, out, 5000) == 12, "data, AES");
    check(felica_decrypt_response_trimmed_des(0, id, 6, key, 8, big, OVER + 16, out, 5000) == 12, "data, trimmed");
    check(felica_encrypt_authentication2_payload_des(key, 8, big, OVER + 16, out, 5000) == 12, "Authentication 2, payload");
    check(felica_decrypt_authentication2_payload_des(key, 8, big, OVER + 16, out, 5000) == 12, "Authentication 2, DES data");
    check(felica_decrypt_authentication2_payload_v2_aes128(id, 6, credentials, 36, big, OVER + 16, out, 5000) == 12,
          "Authentication 2, AES data");
    check(felica_generate_registration_package_des(key, 8, big, OVER + 16, out, 5000) == 12, "package");

    // an ID, a key, credentials
    check(felica_encrypt_command(1, 0, 1, big, OVER + 6, key, 8, id, 6, out, 5000) == 17, "ID");
    check(felica_encrypt_command(1, 0, 1, id, 6, big, OVER + 8, id, 6, out, 5000) == 17, "key");
    check(felica_encrypt_command(2, 0, 1, id, 6, big, OVER + 36, id, 6, out, 5000) == 17, "credentials");
    check(felica_decrypt_response(1, 0, big, OVER + 6, key, 8, credentials, 32, out, 5000) == 17, "ID, opening");
    check(felica_decrypt_response(1, 0, id, 6, big, OVER + 8, credentials, 32, out, 5000) == 17, "key, opening");
    check(felica_decrypt_response(2, 0, id, 6, big, OVER + 36, credentials, 32, out, 5000) == 17, "credentials, opening");
    check(felica_generate_registration_package_des(big, OVER + 8, credentials, 32, out, 5000) == 17, "key, package");
}

static void derivation_over(const uint8_t *big, uint8_t *out)
{
    const uint8_t *id = sample(1, 6).at, *key = sample(2, 8).at, *credentials = sample(3, 36).at;

    // lists of a derivation: whole ones have too many entries; what would be whole if it were cut is not
    check(felica_derive_auth_keys(0, big, OVER + 19, id, 2, id, 2, id, 0, out, 5000) == 17, "keys");
    check(felica_derive_auth_keys(1, id, 0, big, OVER + 2, id, 2, id, 0, out, 5000) == 1, "areas");
    check(felica_derive_auth_keys(2, id, 0, id, 2, big, OVER + 2, id, 0, out, 5000) == 1, "services");
    check(felica_derive_auth_keys(0, id, 0, big, OVER, big, OVER, id, 0, out, 5000) == 1, "areas and services");
    check(felica_derive_auth_keys(2, id, 0, id, 2, id, 2, big, OVER + 16, out, 5000) == 17, "individual key");
    check(felica_derive_auth_keys(2, id, 0, id, 2, id, 2, big, OVER, out, 5000) == 17, "individual key, none if it were cut");

    check(felica_search_key(big, OVER + 19, 0x0101, 1) == 17, "a search, one entry if it were cut");
    check(felica_search_key(big, OVER + 13, 0x0101, 1) == 1, "a search");

    // derived keys, an IDm, Challenge 3C, blocks
    check(felica_encrypt_challenge1a(1, big, OVER + 16, key, 8, key, 8, out, 5000) == 17, "derived keys, 1A");
    check(felica_encrypt_challenge1a(1, credentials, 16, big, OVER + 8, key, 8, out, 5000) == 17, "IDm, 1A");
    check(felica_encrypt_challenge1a(1, credentials, 16, key, 8, big, OVER + 8, out, 5000) == 17, "random 1, 1A");
    check(felica_decrypt_challenge1a(2, big, OVER + 32, key, 8, credentials, 16, out, 5000) == 17, "derived keys, reading 1A");
    check(felica_decrypt_challenge1a(2, credentials, 32, key, 8, big, OVER + 16, out, 5000) == 17, "1A, reading it");
    check(felica_encrypt_challenge1b(2, credentials, 32, key, 8, big, OVER + 4, credentials, 16, out, 5000) == 17, "3C, 1B");
    check(felica_encrypt_challenge1b(2, credentials, 32, big, OVER + 8, id, 4, credentials, 16, out, 5000) == 17, "IDm, 1B");
    check(felica_verify_challenge1b(2, credentials, 32, key, 8, id, 4, credentials, 16, big, OVER + 16) == 17, "1B, checking it");
    check(felica_verify_challenge1b(1, credentials, 16, key, 8, big, OVER + 4, key, 8, key, 8) == 17, "3C, checking 1B");
    check(felica_encrypt_challenge2a(1, credentials, 16, key, 8, id, 4, big, OVER + 8, out, 5000) == 17, "random 2, 2A");
    check(felica_decrypt_challenge2a(2, credentials, 32, key, 8, id, 4, big, OVER + 16, out, 5000) == 17, "2A, reading it");
    check(felica_encrypt_challenge2b(1, credentials, 16, key, 8, big, OVER + 8, out, 5000) == 17, "random 2, 2B");
    check(felica_verify_challenge2b(1, credentials, 16, key, 8, key, 8, big, OVER + 8) == 17, "2B, checking it");
    check(felica_derive_secure_session_keys(big, OVER + 16, out, 5000) == 17, "random 2, session keys");
}

// Memory that is there but costs nothing as long as nobody touches it. Nothing here may be read past its first page, nor written.
void huge(void)
{
    size_t n = OVER + 4096;
    uint8_t *big = mmap(NULL, n, PROT_READ | PROT_WRITE, MAP_PRIVATE | MAP_ANONYMOUS | MAP_NORESERVE, -1, 0);
    uint8_t out[5000], before[5000];

    part("lengths over 32 bits");
    check(big != MAP_FAILED, "mmap");
    // the version and a mark of a session
    big[0] = FELICA_SESSION_VERSION;
    big[1] = FELICA_SCHEME_DES;
    check(mprotect(big, n, PROT_READ) == 0, "mprotect");
    memcpy(before, sample(4, sizeof before).at, sizeof before);
    memcpy(out, before, sizeof before);

    frames_over(big, out);
    derivation_over(big, out);
    sessions_over(big, out);
    check(memcmp(out, before, sizeof before) == 0, "the output changed");
    check(munmap(big, n) == 0, "munmap");
}
