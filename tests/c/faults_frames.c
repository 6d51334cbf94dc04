// Sealed data, Authentication 2, packages and forecasts with a fault (faults.h).
#include "faults.h"

#include "layout.h"

#include <string.h>

#define FAULTS(F) \
    F(BIT, "sealing: the last byte has its lowest bit changed") \
    F(BEHIND, "sealing: writes the byte behind what it answers") \
    F(PAST, "sealing: writes the byte behind the output") \
    F(BEFORE, "sealing: writes the byte before the output") \
    F(CLEARS, "sealing: a refusal writes the first byte of the output") \
    F(REFUSAL_LENGTH, "sealing: a refusal has a length") \
    F(REFUSAL_NUMBER, "sealing: a refusal has a transaction number") \
    F(HIGH_BIT, "sealing: bit 56 of the answer is set") \
    F(PADDING_NOT, "sealing: does not tell the padding") \
    F(PADDING_AES, "sealing, AES: tells what the payload lacks of whole blocks") \
    F(PADDING_REFUSED, "sealing: 16 has the padding that an acceptance would have") \
    F(INPUT, "sealing: changes the payload") \
    F(READS_PAST, "sealing: reads the byte behind the payload") \
    F(READS_BEFORE, "sealing: reads the byte before the payload") \
    F(READS_NULL, "sealing: reads an ID that is not there") \
    F(ROOM_FIRST, "sealing: 16 before 12") \
    F(ROOM_SHORT, "sealing: content with an output that is one short") \
    F(ROOM_16_BITS, "sealing: cuts the output's size to 16 bits") \
    F(LENGTH_32_BITS, "sealing: cuts the payload's length to 32 bits") \
    F(MARK_3, "sealing: takes mark 3 as AES") \
    F(LONG_ID, "sealing: takes an ID of 7 bytes") \
    F(STATE, "sealing: the 5,000th acceptance is another") \
    F(BOTH_WAYS, "sealing and opening: both under another code") \
    F(LENGTH_BYTE, "response frame: the length byte does not count itself") \
    F(CODE, "response frame: the code is another") \
    F(PADDING_FRAME, "response frame, DES: the padding counts length byte and code too") \
    F(FRONT, "response frame: a refusal writes the length byte") \
    F(ACCEPTS, "opening: 0 in the place of 13") \
    F(LEAKS, "opening: writes a byte before the MAC is checked") \
    F(ID_FIRST, "opening: 14 in the place of 13") \
    F(ROOM_BEFORE_MAC, "opening: 16 before 13") \
    F(SWAPPED, "opening: the transaction number has its bytes exchanged") \
    F(LIMIT, "opening: 253 bytes are too many") \
    F(PADDING_OPENING, "opening, DES: tells the last byte as padding") \
    F(TRIMS_8, "trimmed opening: a last byte of 8 drops 8 bytes") \
    F(TRIMS_NOT, "trimmed opening: drops nothing") \
    F(TRIMS_LAST, "trimmed opening: a last byte of 1 to 7 drops as many bytes, whatever they are") \
    F(TRIMS_TWICE, "trimmed opening: what is left is trimmed again") \
    F(FORECAST_LESS, "forecast: one less for 17 bytes") \
    F(FORECAST_SPARE, "forecast, AES: seven spare bytes") \
    F(FORECAST_BLOCK, "forecast, DES: a block more for whole blocks") \
    F(FORECAST_17, "forecast: 12 in the place of 17 for a long payload") \
    F(FORECAST_32_BITS, "forecast: cuts the length to 32 bits") \
    F(AUTH2_LIMIT, "Authentication 2, DES, sealing: 240 bytes are too many") \
    F(PADDING_AUTH2, "Authentication 2, DES, sealing: does not tell the padding of 233 bytes") \
    F(AUTH2_8, "Authentication 2, DES, opening: accepts 8 bytes") \
    F(AUTH2_CODE, "Authentication 2, AES: under code 0x13") \
    F(PACKAGE_EMPTY, "package: accepts an empty one") \
    F(PACKAGE_LIMIT, "package: 4,096 bytes are too many") \
    F(PACKAGE_MAC, "package: the last block is the one before it")

PLANTED(frames, NULL)

// ---- sealing

static void read_outside(bytes id, bytes payload, size_t n)
{
    volatile uint8_t read = 0;

    if (fault == READS_PAST) {
        read = payload[n];
    }
    if (fault == READS_BEFORE) {
        read = *(payload - 1);
    }
    if (fault == READS_NULL) {
        read = id[0];
    }
    (void)read;
}

// The answer to a sealing that the library turns down.
static uint64_t spoil_refusal(uint64_t answer, SEALED)
{
    uint8_t whole[300];

    if (fault == CLEARS && room != 0) {
        out[0] ^= 1;
    }
    if (fault == REFUSAL_LENGTH) {
        answer |= 1 << 16;
    }
    if (fault == REFUSAL_NUMBER) {
        answer |= (uint64_t)number << 32;
    }
    if (fault == ROOM_FIRST && answer == 12 && room < 240) {
        answer = 16;
    }
    if (fault == ROOM_SHORT && answer == 16 && room != 0) {
        answer = __real_felica_encrypt_command(scheme, code, number, id, id_n, key, key_n, data, n, whole, room + 1);
        if (answer % 256 == 0) {
            memcpy(out, whole, room);
            answer = (uint64_t)room << 16;
        }
    }
    return answer;
}

// The same of one that it accepts.
static uint64_t spoil_acceptance(uint64_t answer, bytes payload, size_t n, OUTPUT)
{
    static unsigned long accepted;
    size_t length = felica_answer_length(answer);

    if (fault == BIT) {
        out[length - 1] ^= 1;
    }
    if (fault == BEHIND && length < room) {
        out[length] ^= 1;
    }
    if (fault == PAST) {
        out[room] ^= 1;
    }
    if (fault == BEFORE) {
        *(out - 1) ^= 1;
    }
    if (fault == INPUT && n != 0) {
        *(uint8_t *)(uintptr_t)payload ^= 1;
    }
    if (fault == STATE && ++accepted == 5000) {
        out[0] ^= 1;
    }
    return fault == HIGH_BIT ? answer | (uint64_t)1 << 56 : answer;
}

// The answer with another padding.
static uint64_t with_padding(uint64_t answer, size_t padding)
{
    return (answer & 0xFF00FFFFFFFFFFFF) | (uint64_t)padding << 48;
}

uint64_t __wrap_felica_encrypt_command(SEALED)
{
    uint64_t answer;

    if (fault == MARK_3 && scheme == 3) {
        scheme = 2;
    }
    if (fault == LONG_ID && id_n == 7) {
        id_n = 6;
    }
    if (fault == ROOM_16_BITS) {
        room %= 65536;
    }
    if (fault == LENGTH_32_BITS) {
        n %= 0x100000000u;
    }
    if (fault == BOTH_WAYS) {
        code ^= 0x80;
    }
    read_outside(id, data, n);
    answer = __real_felica_encrypt_command(PASS_SEALED);
    if ((fault == PADDING_REFUSED && answer % 256 == 16) || (fault == PADDING_AES && answer % 256 == 0 && scheme == 2)) {
        return with_padding(answer, padding_of(FELICA_SCHEME_DES, n));
    }
    if (fault == PADDING_NOT) {
        return with_padding(answer, 0);
    }
    return answer % 256 != 0 ? spoil_refusal(answer, PASS_SEALED) : spoil_acceptance(answer, data, n, out, room);
}

uint64_t __wrap_felica_build_secure_response_frame(SEALED)
{
    uint64_t answer;

    if (fault == BOTH_WAYS) {
        code ^= 0x80;
    }
    answer = __real_felica_build_secure_response_frame(PASS_SEALED);
    if (fault == FRONT && answer == 16 && room != 0) {
        out[0] ^= 1;
    }
    if (answer % 256 == 0) {
        if (fault == BOTH_WAYS) {
            out[1] ^= 0x80;
        }
        if (fault == LENGTH_BYTE) {
            out[0]--;
        }
        if (fault == CODE) {
            out[1] ^= 0x80;
        }
        if (fault == PADDING_FRAME && scheme == 1) {
            answer = with_padding(answer, padding_of(scheme, n + 2));
        }
    }
    return answer;
}

uint64_t __wrap_felica_forecast(uint8_t scheme, size_t n)
{
    uint64_t answer;

    if (fault == FORECAST_32_BITS) {
        n %= 0x100000000u;
    }
    if (fault == FORECAST_17 && n > 243) {
        scheme = FELICA_SCHEME_AES128;
    }
    answer = __real_felica_forecast(scheme, n);
    if (felica_answer_number(answer) == 0) {
        answer -= fault == FORECAST_LESS && n == 17 ? 0x10000 : 0;
        answer += fault == FORECAST_SPARE && scheme == FELICA_SCHEME_AES128 ? 0x70000 : 0;
        answer += fault == FORECAST_BLOCK && scheme == FELICA_SCHEME_DES && n % 8 == 0 ? 0x80000 : 0;
    }
    return answer;
}

// ---- opening

uint64_t __wrap_felica_decrypt_response(uint8_t scheme, uint8_t code, OPENED)
{
    uint64_t answer, number;

    if (fault == BOTH_WAYS) {
        code ^= 0x80;
    }
    answer = __real_felica_decrypt_response(scheme, code, PASS_OPENED);
    number = answer >> 32;
    if (answer == 13 && fault == LEAKS && room != 0) {
        out[0] ^= 1;
    }
    if (answer == 13 && fault == ACCEPTS) {
        return 0;
    }
    if (answer == 13 && fault == ID_FIRST && scheme == 1) {
        return 14;
    }
    if (answer == 13 && fault == ROOM_BEFORE_MAC && room < n - 10) {
        return 16;
    }
    if (fault == SWAPPED) {
        return answer % 0x100000000u | (number % 256 * 256 + number / 256) << 32;
    }
    if (fault == LIMIT && n == 253 && answer % 256 == 13) {
        return 12;
    }
    if (fault == PADDING_OPENING && answer % 256 == 0 && scheme == 1 && felica_answer_length(answer) != 0) {
        return with_padding(answer, out[felica_answer_length(answer) - 1]);
    }
    return answer;
}

// Trims what `whole` has, which was opened with this answer: by its last byte alone (TRIMS_LAST), or by the rule (TRIMS_TWICE).
static uint64_t trimmed_again(uint64_t answer, const uint8_t *whole, OUTPUT)
{
    size_t n = felica_answer_length(answer);
    unsigned last = n != 0 ? whole[n - 1] : 0;
    size_t kept = fault == TRIMS_TWICE ? trimmed_size(text_of(whole, n)) : last >= 1 && last <= 7 ? n - last : n;

    if (felica_answer_number(answer) != 0) {
        return answer;
    }
    if (room < kept) {
        return 16;
    }
    memcpy(out, whole, kept);
    return answer - ((uint64_t)(n - kept) << 16);
}

uint64_t __wrap_felica_decrypt_response_trimmed_des(uint8_t code, OPENED)
{
    uint8_t whole[256];
    uint64_t answer;
    size_t length;

    if (fault == BOTH_WAYS) {
        code ^= 0x80;
    }
    if (fault == TRIMS_NOT) {
        return __real_felica_decrypt_response(1, code, PASS_OPENED);
    }
    if (fault == TRIMS_LAST) {
        answer = __real_felica_decrypt_response(1, code, id, id_n, key, key_n, data, n, whole, sizeof whole);
        return trimmed_again(answer, whole, out, room);
    }
    if (fault == TRIMS_TWICE) {
        answer = __real_felica_decrypt_response_trimmed_des(code, id, id_n, key, key_n, data, n, whole, sizeof whole);
        return trimmed_again(answer, whole, out, room);
    }
    answer = __real_felica_decrypt_response_trimmed_des(code, PASS_OPENED);
    length = felica_answer_length(answer);
    if (fault == TRIMS_8 && length >= 8 && out[length - 1] == 8) {
        answer -= 8 << 16;
    }
    return answer;
}

// ---- Authentication 2 and the package

uint64_t __wrap_felica_encrypt_authentication2_payload_des(KEYED)
{
    uint64_t answer;

    if (fault == AUTH2_LIMIT && n == 240 && key_n == 8) {
        return 12;
    }
    answer = __real_felica_encrypt_authentication2_payload_des(PASS_KEYED);
    return fault == PADDING_AUTH2 && n == 233 ? with_padding(answer, 0) : answer;
}

uint64_t __wrap_felica_decrypt_authentication2_payload_des(KEYED)
{
    uint64_t answer = __real_felica_decrypt_authentication2_payload_des(PASS_KEYED);

    return fault == AUTH2_8 && n == 8 && answer == 13 ? 0 : answer;
}

uint64_t __wrap_felica_decrypt_authentication2_payload_v2_aes128(OPENED)
{
    if (fault == BOTH_WAYS) {
        return __real_felica_decrypt_response(2, 0x43 ^ 0x80, PASS_OPENED);
    }
    if (fault == AUTH2_CODE) {
        return __real_felica_decrypt_response(2, 0x13, PASS_OPENED);
    }
    return __real_felica_decrypt_authentication2_payload_v2_aes128(PASS_OPENED);
}

uint64_t __wrap_felica_generate_registration_package_des(KEYED)
{
    uint64_t answer = __real_felica_generate_registration_package_des(PASS_KEYED);

    if (fault == PACKAGE_EMPTY && n == 0 && answer == 10) {
        return 0;
    }
    if (fault == PACKAGE_LIMIT && n == 4096 && answer % 256 == 0) {
        return 12;
    }
    if (fault == PACKAGE_MAC && answer % 256 == 0) {
        memcpy(out + n, out + n - 8, 8);
    }
    return answer;
}
