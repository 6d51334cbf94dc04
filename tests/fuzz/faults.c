// The test of the fuzzer: the library with a fault, which has to be found. The linker puts the functions here in the place of the library's
// (tests/c/wraps.h). FUZZ_FAULT names the fault; tests/fuzz/run takes the names from the calls of has() below. Most faults show only with
// one length or one byte, so that the fuzzer has to look for them. Like the archive, this is compiled without sanitizers.
#include "../c/wraps.h"

#include <stdlib.h>
#include <string.h>

static int has(const char *name)
{
    static const char *chosen;

    chosen = chosen != NULL ? chosen : getenv("FUZZ_FAULT");
    return chosen != NULL && strcmp(chosen, name) == 0;
}

// ---- sealed data

uint64_t __wrap_felica_encrypt_command(SEALED)
{
    static unsigned long accepted;
    uint64_t answer = __real_felica_encrypt_command(PASS_SEALED);

    if (felica_answer_number(answer) != 0) {
        return answer;
    }
    if (has("writes-behind-the-output") && n == 77) {
        ((volatile uint8_t *)out)[room] ^= 1;
    }
    if (has("keeps-state") && ++accepted % 5000 == 0) {
        out[0] ^= 1;
    }
    return has("padding-not-told") && n == 99 ? answer & 0xFF00FFFFFFFFFFFF : answer;
}

uint64_t __wrap_felica_decrypt_response(uint8_t scheme, uint8_t code, OPENED)
{
    uint64_t answer = __real_felica_decrypt_response(scheme, code, PASS_OPENED);

    if (has("refusal-writes") && felica_answer_number(answer) == 13 && n > 200 && room != 0) {
        out[0] ^= 1;
    }
    if (has("another-number") && scheme == FELICA_SCHEME_AES128 && felica_answer_number(answer) == 11 && n == 9) {
        return FELICA_NOT_WHOLE_BLOCKS;
    }
    if (has("accepts") && felica_answer_number(answer) == 13 && room > n && n == 18 && scheme == FELICA_SCHEME_AES128) {
        memset(out, 0, 8);
        return (uint64_t)8 << 16;
    }
    return answer;
}

uint64_t __wrap_felica_decrypt_response_trimmed_des(uint8_t code, OPENED)
{
    static const uint8_t fives[4] = {5, 5, 5, 5};
    uint8_t whole[256];
    uint64_t answer;
    size_t length;

    if (!has("trims-a-short-run")) {
        return __real_felica_decrypt_response_trimmed_des(code, PASS_OPENED);
    }
    // five bytes are dropped where four of them are 5
    answer = __real_felica_decrypt_response_trimmed_des(code, id, id_n, key, key_n, data, n, whole, sizeof whole);
    length = felica_answer_length(answer);
    if (length >= 8 && memcmp(whole + length - 4, fives, 4) == 0) {
        length -= 5;
        answer -= 5 << 16;
    }
    if (room < length) {
        return FELICA_OUTPUT_TOO_SMALL;
    }
    memcpy(out, whole, length);
    return answer;
}

uint64_t __wrap_felica_forecast(uint8_t scheme, size_t n)
{
    uint64_t answer = __real_felica_forecast(scheme, n);

    if (has("forecasts-one-more") && n % 8 == 1 && felica_answer_number(answer) == 0) {
        answer += (uint64_t)1 << 16;
    }
    return has("bit-56") && n == 99 && felica_answer_number(answer) == 0 ? answer | (uint64_t)1 << 56 : answer;
}

uint64_t __wrap_felica_generate_registration_package_des(KEYED)
{
    uint64_t answer = __real_felica_generate_registration_package_des(PASS_KEYED);

    if (has("writes-before-the-output") && n == 24 && answer > 255) {
        ((volatile uint8_t *)out)[-1] ^= 1;
    }
    return answer;
}

uint64_t __wrap_felica_encrypt_authentication2_payload_des(KEYED)
{
    uint64_t answer = __real_felica_encrypt_authentication2_payload_des(PASS_KEYED);

    if (has("another-byte") && n == 100 && answer > 255) {
        out[3] ^= 1;
    }
    return answer;
}

// ---- derivation and challenges

uint64_t __wrap_felica_derive_auth_keys(DERIVED)
{
    uint64_t answer = __real_felica_derive_auth_keys(PASS_DERIVED);

    if (has("changes-an-input") && felica_answer_number(answer) == 0 && areas_n == 4) {
        ((uint8_t *)(uintptr_t)areas)[3] ^= 1;
    }
    return has("refusal-with-a-length") && felica_answer_number(answer) == 5 ? answer | (uint64_t)1 << 16 : answer;
}

uint64_t __wrap_felica_search_key(SEARCHED)
{
    uint64_t answer = __real_felica_search_key(PASS_SEARCHED);

    return has("counts-one-more") && keys_n == 5 * 19 && answer == ((uint64_t)3 << 16 | FELICA_ALGORITHM_AES128 << 8)
               ? answer + ((uint64_t)1 << 16)
               : answer;
}

uint64_t __wrap_felica_verify_challenge2b(CHALLENGED, BLOCK, CHECKED)
{
    volatile uint8_t read = 0;

    if (has("reads-behind-an-input") && n == checked_n) {
        read = block[n];
    }
    (void)read;
    return __real_felica_verify_challenge2b(PASS_CHALLENGED, PASS_BLOCK, PASS_CHECKED);
}

uint64_t __wrap_felica_verify_challenge1b(CHALLENGED, THIRD, BLOCK, CHECKED)
{
    uint64_t answer;
    uint8_t wanted[16];

    answer = __real_felica_verify_challenge1b(PASS_CHALLENGED, PASS_THIRD, PASS_BLOCK, PASS_CHECKED);
    if (!has("compares-7-bytes") || answer != 13 || checked_n != 8) {
        return answer;
    }
    felica_encrypt_challenge1b(PASS_CHALLENGED, PASS_THIRD, PASS_BLOCK, wanted, sizeof wanted);
    return memcmp(wanted, checked, 7) == 0 ? 0 : answer;
}

uint64_t __wrap_felica_derive_secure_session_keys(BLOCK, OUTPUT)
{
    uint8_t last = room >= 32 ? out[31] : 0;
    uint64_t answer = __real_felica_derive_secure_session_keys(PASS_BLOCK, PASS_OUTPUT);

    if (has("leaves-a-byte-out") && answer > 255) {
        out[31] = last;
    }
    return answer;
}

// ---- the session

uint64_t __wrap_felica_session_new(uint8_t scheme, uint16_t number, MADE)
{
    volatile uint8_t read = 0;

    if (has("reads-an-empty-input") && nodes_n == 0) {
        read = nodes[0];
    }
    (void)read;
    return __real_felica_session_new(scheme, number, PASS_MADE);
}

uint64_t __wrap_felica_session_new_with_ceiling(uint8_t scheme, uint16_t number, uint16_t ceiling, MADE)
{
    if (has("ceiling-0-is-none") && ceiling == 0) {
        ceiling = FELICA_CEILING_NONE;
    }
    return __real_felica_session_new_with_ceiling(scheme, number, ceiling, PASS_MADE);
}

static unsigned number_in(SHOWN)
{
    return felica_answer_transaction_number(felica_session_transaction_number(PASS_SESSION));
}

static unsigned ceiling_in(SHOWN)
{
    return felica_answer_ceiling(__real_felica_session_ceiling(PASS_SESSION));
}

// The ceiling stands from byte 4 on, the count from byte 178 on.
static void set_word(uint8_t *at, unsigned value)
{
    at[0] = (uint8_t)value;
    at[1] = (uint8_t)(value >> 8);
}

uint64_t __wrap_felica_session_increment_transaction_number(KEPT)
{
    unsigned number = number_in(PASS_SESSION), ceiling = ceiling_in(PASS_SESSION);
    uint64_t answer;

    if (has("refuses-one-below-the-ceiling") && ceiling != 0xFFFF && number + 1 == ceiling) {
        return FELICA_NUMBER_EXHAUSTED;
    }
    answer = __real_felica_session_increment_transaction_number(PASS_SESSION);
    if (has("refuses-one-above-the-ceiling") && answer == FELICA_NUMBER_EXHAUSTED && number == ceiling && number != 0xFFFF) {
        __real_felica_session_set_transaction_number(session, size, (uint16_t)(number + 1));
        return (uint64_t)(number + 1) << 32;
    }
    if (has("step-resets-the-ceiling") && answer > 255 && ceiling % 256 == number % 256 + 1) {
        set_word(session + 4, FELICA_CEILING_NONE);
    }
    if (has("step-clears-the-count") && answer > 255 && felica_answer_count(felica_session_turned_away(PASS_SESSION)) > 1) {
        set_word(session + 178, 0);
    }
    if (has("steps-by-two") && answer > 255 && felica_answer_transaction_number(answer) % 256 == 0) {
        return __real_felica_session_increment_transaction_number(PASS_SESSION);
    }
    return answer;
}

uint64_t __wrap_felica_session_set_transaction_number(KEPT, uint16_t number)
{
    unsigned ceiling = ceiling_in(PASS_SESSION);

    if (has("setting-stops-at-the-ceiling") && number == ceiling + 1) {
        number = (uint16_t)ceiling;
    }
    return __real_felica_session_set_transaction_number(session, size, number);
}

uint64_t __wrap_felica_session_apply_response(KEPT, EXCHANGED)
{
    uint8_t before[FELICA_SESSION_SIZE];
    uint64_t answer;
    unsigned number;

    if (size == sizeof before) {
        memcpy(before, session, size);
    }
    answer = __real_felica_session_apply_response(PASS_SESSION, PASS_EXCHANGED);
    number = felica_answer_number(answer);
    if (has("does-not-count") && number == 14) {
        memcpy(session, before, size);
    }
    if (has("counts-16") && number == 16) {
        __real_felica_session_apply_response(session, size, code, data, 9, out, room);
    }
    if (has("response-raises-the-ceiling") && answer > 255 && number_in(PASS_SESSION) == ceiling_in(PASS_SESSION) + 1) {
        set_word(session + 4, number_in(PASS_SESSION));
    }
    if (has("counts-where-version-1-did") && number == 13) {
        set_word(session + 4, session[178] | session[179] << 8);
        set_word(session + 178, 0);
    }
    if (has("refusal-sets-the-number") && number == 13) {
        felica_session_set_transaction_number(session, size, 0);
    }
    return has("9-for-15") && number == 15 ? FELICA_NUMBER_EXHAUSTED : answer;
}

uint64_t __wrap_felica_session_ceiling(SHOWN)
{
    uint64_t answer = __real_felica_session_ceiling(PASS_SESSION);

    return has("ceiling-told-as-a-count") && felica_answer_number(answer) == 0 ? answer >> 16 : answer;
}

// The record as version 1 had it, with the count where the ceiling stands now.
uint64_t __wrap_felica_session_turned_away(SHOWN)
{
    if (has("takes-version-1") && size == 178 && session[0] == 1) {
        return (uint64_t)(session[4] | session[5] << 8) << 16;
    }
    return __real_felica_session_turned_away(PASS_SESSION);
}

uint64_t __wrap_felica_session_nodes(SHOWN, OUTPUT)
{
    uint64_t answer = __real_felica_session_nodes(PASS_SESSION, PASS_OUTPUT);
    size_t length = felica_answer_length(answer);

    if (has("writes-behind-its-length") && length == 6 && room > length) {
        out[length] ^= 1;
    }
    return answer;
}
