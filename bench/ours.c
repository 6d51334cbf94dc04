// The proved functions, as the archives of crates bench and session export them. Those of bench work in place,
// so the input is copied first.
#include "rows.h"

#include "../include/felica_secure.h"

#include <string.h>

// A slice is its first byte's address and its length.
void hernotxak_bench_aes128_encrypt(const uint8_t *key, size_t key_n, uint8_t *block, size_t block_n);
void hernotxak_bench_aes128_decrypt(const uint8_t *key, size_t key_n, uint8_t *block, size_t block_n);
void hernotxak_bench_aes128_ofb(const uint8_t *key, size_t key_n, const uint8_t *iv, size_t iv_n,
                                uint8_t *text, size_t text_n);
void hernotxak_bench_aes128_cmac(const uint8_t *key, size_t key_n, const uint8_t *text, size_t text_n,
                                 uint8_t *mac, size_t mac_n);
void hernotxak_bench_des_encrypt(const uint8_t *key, size_t key_n, uint8_t *block, size_t block_n);
void hernotxak_bench_des_decrypt(const uint8_t *key, size_t key_n, uint8_t *block, size_t block_n);
uint8_t hernotxak_bench_des_cbc_encrypt(const uint8_t *key, size_t key_n, uint8_t *text, size_t text_n);
uint8_t hernotxak_bench_des_cbc_decrypt(const uint8_t *key, size_t key_n, uint8_t *text, size_t text_n);
void hernotxak_bench_des_under_each(const uint8_t *keys, size_t keys_n, uint8_t *block, size_t block_n);
void hernotxak_bench_des_under_each_back(const uint8_t *keys, size_t keys_n, uint8_t *block, size_t block_n);
void hernotxak_bench_tdes2_encrypt(const uint8_t *key1, size_t key1_n, const uint8_t *key2, size_t key2_n,
                                   uint8_t *block, size_t block_n);

static void aes_block(const struct input *in, uint8_t *out)
{
    memcpy(out, in->text, AES_BLOCK);
    hernotxak_bench_aes128_encrypt(in->key, AES_BLOCK, out, AES_BLOCK);
}

static void aes_block_back(const struct input *in, uint8_t *out)
{
    memcpy(out, in->text, AES_BLOCK);
    hernotxak_bench_aes128_decrypt(in->key, AES_BLOCK, out, AES_BLOCK);
}

// The last block of the key stream over zeros is the IV encrypted again and again.
static void aes_chain(const struct input *in, uint8_t *out)
{
    static uint8_t stream[LONG_TEXT];

    memset(stream, 0, LONG_TEXT);
    hernotxak_bench_aes128_ofb(in->key, AES_BLOCK, in->iv, AES_BLOCK, stream, LONG_TEXT);
    memcpy(out, stream + LONG_TEXT - AES_BLOCK, AES_BLOCK);
}

static void aes_ofb(const struct input *in, uint8_t *out)
{
    memcpy(out, in->text, AES_TEXT);
    hernotxak_bench_aes128_ofb(in->key, AES_BLOCK, in->iv, AES_BLOCK, out, AES_TEXT);
}

static void aes_cmac(const struct input *in, uint8_t *out)
{
    hernotxak_bench_aes128_cmac(in->key, AES_BLOCK, in->text, AES_TEXT, out, AES_BLOCK);
}

static void des_block(const struct input *in, uint8_t *out)
{
    memcpy(out, in->text, DES_BLOCK);
    hernotxak_bench_des_encrypt(in->key, DES_BLOCK, out, DES_BLOCK);
}

static void des_block_back(const struct input *in, uint8_t *out)
{
    memcpy(out, in->text, DES_BLOCK);
    hernotxak_bench_des_decrypt(in->key, DES_BLOCK, out, DES_BLOCK);
}

static void des_chain(const struct input *in, uint8_t *out)
{
    memcpy(out, in->text, LONG_TEXT);
    hernotxak_bench_des_cbc_encrypt(in->key, DES_BLOCK, out, LONG_TEXT);
}

static void cbc(const struct input *in, uint8_t *out)
{
    memcpy(out, in->text, DES_TEXT);
    hernotxak_bench_des_cbc_encrypt(in->key, DES_BLOCK, out, DES_TEXT);
}

static void cbc_back(const struct input *in, uint8_t *out)
{
    memcpy(out, in->text, DES_TEXT);
    hernotxak_bench_des_cbc_decrypt(in->key, DES_BLOCK, out, DES_TEXT);
}

static void fold(const struct input *in, uint8_t *out)
{
    memcpy(out, in->iv, DES_BLOCK);
    hernotxak_bench_des_under_each(in->text, DES_TEXT, out, DES_BLOCK);
}

static void fold_back(const struct input *in, uint8_t *out)
{
    memcpy(out, in->iv, DES_BLOCK);
    hernotxak_bench_des_under_each_back(in->text, DES_TEXT, out, DES_BLOCK);
}

static void tdes_block(const struct input *in, uint8_t *out)
{
    memcpy(out, in->text, DES_BLOCK);
    hernotxak_bench_tdes2_encrypt(in->key, DES_BLOCK, in->key2, DES_BLOCK, out, DES_BLOCK);
}

// ---- derivation

static void put_answer(uint8_t *out, uint64_t answer)
{
    memcpy(out, &answer, ANSWER);
}

static void aes_derive(const struct input *in, uint8_t *out)
{
    const struct lists *lists = &in->aes_lists;

    put_answer(out, felica_derive_auth_keys(AES_MARK, lists->keys, sizeof lists->keys, lists->areas, sizeof lists->areas,
                                            lists->services, sizeof lists->services, in->key, AES_BLOCK, out + ANSWER, AES_DERIVED));
}

static void des_derive(const struct input *in, uint8_t *out)
{
    const struct lists *lists = &in->des_lists;

    put_answer(out, felica_derive_auth_keys(DES_MARK, lists->keys, sizeof lists->keys, lists->areas, sizeof lists->areas,
                                            lists->services, sizeof lists->services, NULL, 0, out + ANSWER, DES_DERIVED));
}

// ---- challenges

// The derived keys are two blocks, whichever the scheme.
static size_t block_of(uint8_t scheme)
{
    return scheme == DES_MARK ? DES_BLOCK : AES_BLOCK;
}

static uint64_t make_1a(uint8_t scheme, const struct input *in, const uint8_t *random, uint8_t *out)
{
    const size_t n = block_of(scheme);

    return felica_encrypt_challenge1a(scheme, in->derived, 2 * n, in->idm, IDM, random, n, out, n);
}

static uint64_t read_1a(uint8_t scheme, const struct input *in, const uint8_t *challenge, uint8_t *out)
{
    const size_t n = block_of(scheme);

    return felica_decrypt_challenge1a(scheme, in->derived, 2 * n, in->idm, IDM, challenge, n, out, n);
}

static uint64_t make_1b(uint8_t scheme, const struct input *in, const uint8_t *random, uint8_t *out)
{
    const size_t n = block_of(scheme);

    return felica_encrypt_challenge1b(scheme, in->derived, 2 * n, in->idm, IDM, in->credentials + THIRD, 4, random, n, out, n);
}

static uint64_t check_1b(uint8_t scheme, const struct input *in, const uint8_t *challenge)
{
    const size_t n = block_of(scheme);

    return felica_verify_challenge1b(scheme, in->derived, 2 * n, in->idm, IDM, in->credentials + THIRD, 4, in->randoms[0], n,
                                     challenge, n);
}

static uint64_t session_keys(const uint8_t *random_2, uint8_t *out)
{
    return felica_derive_secure_session_keys(random_2, AES_BLOCK, out, SESSION_KEYS);
}

// 1A, random 2, 2B and, with AES, the session keys. The answer is that to 1B.
static void reader(uint8_t scheme, const struct input *in, uint8_t *out)
{
    const size_t n = block_of(scheme);
    uint8_t *to = out + ANSWER;

    make_1a(scheme, in, in->randoms[0], to);
    put_answer(out, check_1b(scheme, in, in->given));
    felica_decrypt_challenge2a(scheme, in->derived, 2 * n, in->idm, IDM, in->credentials + THIRD, 4, in->given + n, n, to + n, n);
    felica_encrypt_challenge2b(scheme, in->derived, 2 * n, in->idm, IDM, to + n, n, to + 2 * n, n);
    if (scheme == AES_MARK)
        session_keys(to + n, to + 3 * n);
}

// Random 1, 1B, 2A and, with AES, the session keys. The answer is that to 2B.
static void card(uint8_t scheme, const struct input *in, uint8_t *out)
{
    const size_t n = block_of(scheme);
    const uint8_t *random_2 = in->randoms[1];
    uint8_t *to = out + ANSWER;

    read_1a(scheme, in, in->given, to);
    make_1b(scheme, in, to, to + n);
    felica_encrypt_challenge2a(scheme, in->derived, 2 * n, in->idm, IDM, in->credentials + THIRD, 4, random_2, n, to + 2 * n, n);
    put_answer(out, felica_verify_challenge2b(scheme, in->derived, 2 * n, in->idm, IDM, random_2, n, in->given + n, n));
    if (scheme == AES_MARK)
        session_keys(random_2, to + 3 * n);
}

static void aes_make_1a(const struct input *in, uint8_t *out)
{
    put_answer(out, make_1a(AES_MARK, in, in->randoms[in->which], out + ANSWER));
}

static void aes_read_1a(const struct input *in, uint8_t *out)
{
    put_answer(out, read_1a(AES_MARK, in, in->given, out + ANSWER));
}

static void aes_make_1b(const struct input *in, uint8_t *out)
{
    put_answer(out, make_1b(AES_MARK, in, in->randoms[in->which], out + ANSWER));
}

static void aes_check_1b(const struct input *in, uint8_t *out)
{
    put_answer(out, check_1b(AES_MARK, in, in->given));
}

static void aes_keys(const struct input *in, uint8_t *out)
{
    put_answer(out, session_keys(in->randoms[1], out + ANSWER));
}

static void aes_reader(const struct input *in, uint8_t *out)
{
    reader(AES_MARK, in, out);
}

static void aes_card(const struct input *in, uint8_t *out)
{
    card(AES_MARK, in, out);
}

static void des_make_1a(const struct input *in, uint8_t *out)
{
    put_answer(out, make_1a(DES_MARK, in, in->randoms[in->which], out + ANSWER));
}

static void des_read_1a(const struct input *in, uint8_t *out)
{
    put_answer(out, read_1a(DES_MARK, in, in->given, out + ANSWER));
}

static void des_make_1b(const struct input *in, uint8_t *out)
{
    put_answer(out, make_1b(DES_MARK, in, in->randoms[in->which], out + ANSWER));
}

static void des_check_1b(const struct input *in, uint8_t *out)
{
    put_answer(out, check_1b(DES_MARK, in, in->given));
}

static void des_reader(const struct input *in, uint8_t *out)
{
    reader(DES_MARK, in, out);
}

static void des_card(const struct input *in, uint8_t *out)
{
    card(DES_MARK, in, out);
}

// ---- frames

static void seal_frame(uint8_t scheme, const struct input *in, const uint8_t *credentials, size_t n, uint8_t *out)
{
    put_answer(out, felica_encrypt_command(scheme, in->code, in->number, in->id, ID, credentials, n, in->text, in->payload, out + ANSWER,
                                           SEALED));
}

static void open_frame(uint8_t scheme, const struct input *in, const uint8_t *credentials, size_t n, uint8_t *out)
{
    put_answer(out, felica_decrypt_response(scheme, in->code, in->id, ID, credentials, n, in->given, in->given_n, out + ANSWER, SEALED));
}

static void aes_seal(const struct input *in, uint8_t *out)
{
    seal_frame(AES_MARK, in, in->credentials, CREDENTIALS, out);
}

static void aes_open(const struct input *in, uint8_t *out)
{
    open_frame(AES_MARK, in, in->credentials, CREDENTIALS, out);
}

static void des_seal(const struct input *in, uint8_t *out)
{
    seal_frame(DES_MARK, in, in->key, DES_BLOCK, out);
}

static void des_open(const struct input *in, uint8_t *out)
{
    open_frame(DES_MARK, in, in->key, DES_BLOCK, out);
}

// ---- the session's response step: every call takes the session as it was made.
static uint8_t aes_sessions[INPUTS][FELICA_SESSION_SIZE];
static uint8_t des_sessions[INPUTS][FELICA_SESSION_SIZE];

static void make_session(uint8_t scheme, const struct input *in, const uint8_t *credentials, size_t n, uint8_t *session)
{
    felica_session_new(scheme, in->number - 1, in->id, ID, credentials, n, in->text, FELICA_SESSION_NODES_MAX * NODE, session,
                       FELICA_SESSION_SIZE);
}

static void start(void)
{
    for (int i = 0; i < INPUTS; i++) {
        make_session(AES_MARK, &inputs[i], inputs[i].credentials, CREDENTIALS, aes_sessions[i]);
        make_session(DES_MARK, &inputs[i], inputs[i].key, DES_BLOCK, des_sessions[i]);
    }
}

static void step(const uint8_t *made, const struct input *in, uint8_t *out)
{
    uint8_t session[FELICA_SESSION_SIZE];

    memcpy(session, made, FELICA_SESSION_SIZE);
    put_answer(out, felica_session_apply_response(session, FELICA_SESSION_SIZE, in->code, in->given, in->given_n, out + ANSWER, SEALED));
}

static void aes_step(const struct input *in, uint8_t *out)
{
    step(aes_sessions[in - inputs], in, out);
}

static void des_step(const struct input *in, uint8_t *out)
{
    step(des_sessions[in - inputs], in, out);
}

const struct contestant ours = {
    "",
    start,
    {AES_OPERATIONS, DES_OPERATIONS},
};
