// The rows of bench/compare: the functions of include/felica_secure.h on their own. This file is linked with each of the two archives into
// a library, which the program loads.
#include "compare.h"

#include <string.h>

static void put_answer(uint8_t *out, uint64_t answer)
{
    memcpy(out, &answer, ANSWER);
}

// Block, derived keys and credentials are as long as the scheme says.
static size_t block_of(const struct work *w)
{
    return w->scheme == DES_MARK ? DES_BLOCK : AES_BLOCK;
}

static const uint8_t *credentials_of(const struct work *w)
{
    return w->scheme == DES_MARK ? w->in->key : w->in->credentials;
}

static size_t credentials_n(const struct work *w)
{
    return w->scheme == DES_MARK ? FELICA_DES_KEY_SIZE : FELICA_AES_CREDENTIALS_SIZE;
}

// ---- frames

static void seal(const struct work *w, uint8_t *out)
{
    put_answer(out, felica_encrypt_command(w->scheme, w->in->code, w->in->number, w->in->id, ID, credentials_of(w), credentials_n(w),
                                           w->in->text, w->n, out + ANSWER, SEALED));
}

static void open_sealed(const struct work *w, uint8_t *out)
{
    put_answer(out, felica_decrypt_response(w->scheme, w->in->code, w->in->id, ID, credentials_of(w), credentials_n(w), w->given,
                                            w->given_n, out + ANSWER, SEALED));
}

// The last byte is another one, so the MAC differs.
static void open_changed(const struct work *w, uint8_t *out)
{
    uint8_t changed[FELICA_FRAME_MAX];

    memcpy(changed, w->given, sizeof changed);
    changed[w->given_n - 1] ^= 1;
    put_answer(out, felica_decrypt_response(w->scheme, w->in->code, w->in->id, ID, credentials_of(w), credentials_n(w), changed,
                                            w->given_n, out + ANSWER, SEALED));
}

static void open_trimmed(const struct work *w, uint8_t *out)
{
    put_answer(out, felica_decrypt_response_trimmed_des(w->in->code, w->in->id, ID, w->in->key, FELICA_DES_KEY_SIZE, w->given, w->given_n,
                                                        out + ANSWER, SEALED));
}

static void response_frame(const struct work *w, uint8_t *out)
{
    put_answer(out, felica_build_secure_response_frame(w->scheme, w->in->code, w->in->number, w->in->id, ID, credentials_of(w),
                                                       credentials_n(w), w->in->text, w->n, out + ANSWER, FELICA_FRAME_MAX));
}

static void forecast(const struct work *w, uint8_t *out)
{
    put_answer(out, felica_forecast(w->scheme, w->n));
}

// ---- Authentication 2 and the registration package

static void seal_2_des(const struct work *w, uint8_t *out)
{
    put_answer(out, felica_encrypt_authentication2_payload_des(w->in->key, FELICA_DES_KEY_SIZE, w->in->text, w->n, out + ANSWER, SEALED));
}

static void open_2_des(const struct work *w, uint8_t *out)
{
    put_answer(out, felica_decrypt_authentication2_payload_des(w->in->key, FELICA_DES_KEY_SIZE, w->given, w->given_n, out + ANSWER,
                                                               SEALED));
}

// The response that is opened is sealed as a command with the response's code.
static void seal_2_aes(const struct work *w, uint8_t *out)
{
    put_answer(out, felica_encrypt_command(AES_MARK, 0x43, w->in->number, w->in->id, ID, w->in->credentials, CREDENTIALS, w->in->text,
                                           w->n, out + ANSWER, SEALED));
}

static void open_2_aes(const struct work *w, uint8_t *out)
{
    put_answer(out, felica_decrypt_authentication2_payload_v2_aes128(w->in->id, ID, w->in->credentials, CREDENTIALS, w->given, w->given_n,
                                                                     out + ANSWER, SEALED));
}

static void package(const struct work *w, uint8_t *out)
{
    put_answer(out, felica_generate_registration_package_des(w->in->key, FELICA_DES_KEY_SIZE, w->in->text, w->n, out + ANSWER,
                                                             FELICA_PACKAGE_MAX + DES_BLOCK));
}

// ---- derivation and challenges

static void derive(const struct work *w, uint8_t *out)
{
    const int is_des = w->scheme == DES_MARK;
    const struct lists *lists = is_des ? &w->in->des_lists : &w->in->aes_lists;

    put_answer(out, felica_derive_auth_keys(w->scheme, lists->keys, sizeof lists->keys, lists->areas, sizeof lists->areas, lists->services,
                                            sizeof lists->services, is_des ? NULL : w->in->key, is_des ? 0 : AES_BLOCK, out + ANSWER,
                                            AES_DERIVED));
}

static void make_1a(const struct work *w, uint8_t *out)
{
    const size_t n = block_of(w);

    put_answer(out, felica_encrypt_challenge1a(w->scheme, w->in->derived, 2 * n, w->in->idm, IDM, w->in->randoms[0], n, out + ANSWER, n));
}

static void read_1a(const struct work *w, uint8_t *out)
{
    const size_t n = block_of(w);

    put_answer(out, felica_decrypt_challenge1a(w->scheme, w->in->derived, 2 * n, w->in->idm, IDM, w->given, n, out + ANSWER, n));
}

static void make_1b(const struct work *w, uint8_t *out)
{
    const size_t n = block_of(w);

    put_answer(out, felica_encrypt_challenge1b(w->scheme, w->in->derived, 2 * n, w->in->idm, IDM, w->in->credentials + THIRD, 4,
                                               w->in->randoms[0], n, out + ANSWER, n));
}

static void check_1b(const struct work *w, uint8_t *out)
{
    const size_t n = block_of(w);

    put_answer(out, felica_verify_challenge1b(w->scheme, w->in->derived, 2 * n, w->in->idm, IDM, w->in->credentials + THIRD, 4,
                                              w->in->randoms[0], n, w->given, n));
}

static void make_2a(const struct work *w, uint8_t *out)
{
    const size_t n = block_of(w);

    put_answer(out, felica_encrypt_challenge2a(w->scheme, w->in->derived, 2 * n, w->in->idm, IDM, w->in->credentials + THIRD, 4,
                                               w->in->randoms[1], n, out + ANSWER, n));
}

static void read_2a(const struct work *w, uint8_t *out)
{
    const size_t n = block_of(w);

    put_answer(out, felica_decrypt_challenge2a(w->scheme, w->in->derived, 2 * n, w->in->idm, IDM, w->in->credentials + THIRD, 4, w->given,
                                               n, out + ANSWER, n));
}

static void make_2b(const struct work *w, uint8_t *out)
{
    const size_t n = block_of(w);

    put_answer(out, felica_encrypt_challenge2b(w->scheme, w->in->derived, 2 * n, w->in->idm, IDM, w->in->randoms[1], n, out + ANSWER, n));
}

static void check_2b(const struct work *w, uint8_t *out)
{
    const size_t n = block_of(w);

    put_answer(out, felica_verify_challenge2b(w->scheme, w->in->derived, 2 * n, w->in->idm, IDM, w->in->randoms[1], n, w->given, n));
}

static void session_keys(const struct work *w, uint8_t *out)
{
    put_answer(out, felica_derive_secure_session_keys(w->in->randoms[1], AES_BLOCK, out + ANSWER, SESSION_KEYS));
}

// ---- the session. A call that changes it gets a copy, which is compared too.

static uint64_t make_session(const struct work *w, uint8_t *session)
{
    return felica_session_new(w->scheme, w->in->number - 1, w->in->id, ID, credentials_of(w), credentials_n(w), w->in->text,
                              FELICA_SESSION_NODES_MAX * NODE, session, FELICA_SESSION_SIZE);
}

void set_session(struct work *w)
{
    make_session(w, w->session);
}

static void new_session(const struct work *w, uint8_t *out)
{
    put_answer(out, make_session(w, out + ANSWER));
}

static void increment(const struct work *w, uint8_t *out)
{
    memcpy(out + ANSWER, w->session, FELICA_SESSION_SIZE);
    put_answer(out, felica_session_increment_transaction_number(out + ANSWER, FELICA_SESSION_SIZE));
}

static void set_number(const struct work *w, uint8_t *out)
{
    memcpy(out + ANSWER, w->session, FELICA_SESSION_SIZE);
    put_answer(out, felica_session_set_transaction_number(out + ANSWER, FELICA_SESSION_SIZE, w->in->number));
}

static void session_seal(const struct work *w, uint8_t *out)
{
    put_answer(out, felica_session_encrypt_command(w->session, FELICA_SESSION_SIZE, w->in->code, w->in->text, w->n, out + ANSWER, SEALED));
}

static void apply(const struct work *w, uint8_t *out)
{
    uint8_t *session = out + ANSWER + FELICA_FRAME_MAX;

    memcpy(session, w->session, FELICA_SESSION_SIZE);
    put_answer(out, felica_session_apply_response(session, FELICA_SESSION_SIZE, w->in->code, w->given, w->given_n, out + ANSWER, SEALED));
}

static void node_index(const struct work *w, uint8_t *out)
{
    const uint8_t *last = w->in->text + (FELICA_SESSION_NODES_MAX - 1) * NODE;

    put_answer(out, felica_session_node_index(w->session, FELICA_SESSION_SIZE, (uint16_t)(last[0] | last[1] << 8)));
}

// The four that only tell what a session holds are too short for rows of their own.
static void tell(const struct work *w, uint8_t *out)
{
    put_answer(out, felica_session_transaction_number(w->session, FELICA_SESSION_SIZE));
    put_answer(out + ANSWER, felica_session_turned_away(w->session, FELICA_SESSION_SIZE));
    put_answer(out + 2 * ANSWER, felica_session_scheme(w->session, FELICA_SESSION_SIZE));
    put_answer(out + 3 * ANSWER, felica_session_transaction_id(w->session, FELICA_SESSION_SIZE, out + 4 * ANSWER, ID));
}

static void nodes(const struct work *w, uint8_t *out)
{
    put_answer(out, felica_session_nodes(w->session, FELICA_SESSION_SIZE, out + ANSWER, FELICA_SESSION_NODES_MAX * NODE));
}

// ---- the table

#define ROW(what, mark, length, call, maker) {.title = what, .scheme = mark, .n = length, .run = call, .make = maker}
#define SCHEME_ROW(what, call, maker) ROW("AES " what, AES_MARK, 0, call, maker), ROW("DES " what, DES_MARK, 0, call, maker)
#define FRAME_ROWS(what, call, maker)                          \
    ROW("AES " what " 0 bytes", AES_MARK, 0, call, maker),     \
    ROW("AES " what " 16 bytes", AES_MARK, 16, call, maker),   \
    ROW("AES " what " 64 bytes", AES_MARK, 64, call, maker),   \
    ROW("AES " what " 128 bytes", AES_MARK, 128, call, maker), \
    ROW("AES " what " 243 bytes", AES_MARK, 243, call, maker), \
    ROW("DES " what " 0 bytes", DES_MARK, 0, call, maker),     \
    ROW("DES " what " 16 bytes", DES_MARK, 16, call, maker),   \
    ROW("DES " what " 64 bytes", DES_MARK, 64, call, maker),   \
    ROW("DES " what " 128 bytes", DES_MARK, 128, call, maker), \
    ROW("DES " what " 232 bytes", DES_MARK, 232, call, maker)

const struct compared compared_rows[] = {
    FRAME_ROWS("frame, seal", seal, NULL),
    FRAME_ROWS("frame, open", open_sealed, seal),
    FRAME_ROWS("response frame,", response_frame, NULL),
    {.title = "AES frame, refuse 243 bytes", .scheme = AES_MARK, .n = 243, .run = open_changed, .make = seal, .refusal = WRONG_MAC},
    {.title = "DES frame, refuse 232 bytes", .scheme = DES_MARK, .n = 232, .run = open_changed, .make = seal, .refusal = WRONG_MAC},
    ROW("DES frame, open and trim 130 bytes", DES_MARK, 130, open_trimmed, seal),
    SCHEME_ROW("forecast", forecast, NULL),
    ROW("AES Authentication 2, open 16 bytes", AES_MARK, 16, open_2_aes, seal_2_aes),
    ROW("DES Authentication 2, seal 32 bytes", DES_MARK, 32, seal_2_des, NULL),
    ROW("DES Authentication 2, seal 240 bytes", DES_MARK, 240, seal_2_des, NULL),
    ROW("DES Authentication 2, open 32 bytes", DES_MARK, 32, open_2_des, seal_2_des),
    ROW("DES Authentication 2, open 240 bytes", DES_MARK, 240, open_2_des, seal_2_des),
    ROW("DES registration package, 64 bytes", DES_MARK, 64, package, NULL),
    ROW("DES registration package, 4096 bytes", DES_MARK, 4096, package, NULL),
    SCHEME_ROW("derivation, 32 areas, 32 services, 128 keys", derive, NULL),
    SCHEME_ROW("challenge, make 1A", make_1a, NULL),
    SCHEME_ROW("challenge, read 1A", read_1a, make_1a),
    SCHEME_ROW("challenge, make 1B", make_1b, NULL),
    SCHEME_ROW("challenge, check 1B", check_1b, make_1b),
    SCHEME_ROW("challenge, make 2A", make_2a, NULL),
    SCHEME_ROW("challenge, read 2A", read_2a, make_2a),
    SCHEME_ROW("challenge, make 2B", make_2b, NULL),
    SCHEME_ROW("challenge, check 2B", check_2b, make_2b),
    ROW("AES session keys", AES_MARK, 0, session_keys, NULL),
    SCHEME_ROW("session, make with 64 nodes", new_session, NULL),
    SCHEME_ROW("session, step the number", increment, NULL),
    SCHEME_ROW("session, set the number", set_number, NULL),
    FRAME_ROWS("session, seal", session_seal, NULL),
    FRAME_ROWS("session, take a response of", apply, seal),
    SCHEME_ROW("session, the last of 64 nodes", node_index, NULL),
    SCHEME_ROW("session, number, count, scheme, ID", tell, NULL),
    SCHEME_ROW("session, 64 nodes", nodes, NULL),
};

const int compared_rows_n = sizeof compared_rows / sizeof compared_rows[0];
