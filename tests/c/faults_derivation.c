// Derivations, searches and challenges with a fault (faults.h).
#include "faults.h"

#include <string.h>

#define FAULTS(F) \
    F(KEYS_CUT, "derivation: takes a key list with a part of an entry") \
    F(LAST_ALGORITHM, "derivation: does not look at the last entry's algorithm") \
    F(INDIVIDUAL_8, "derivation: takes an individual key of 8 bytes as none") \
    F(INDIVIDUAL_ZEROS, "derivation: takes sixteen zeros as no individual key") \
    F(DERIVE_MARK_3, "derivation: takes mark 3 as chosen by keys") \
    F(KEYS_128, "derivation: 128 keys are too many") \
    F(SERVICES_32, "derivation: 32 services are too many") \
    F(TWICE_FIRST, "derivation: 2 before 1") \
    F(TWICE_NOT, "derivation: takes two keys of a node, where the last entry is one") \
    F(EMPTY_DES, "derivation: 3 in the place of 7") \
    F(NO_NODE, "derivation: 4 without the node") \
    F(NODE_SWAPPED, "derivation: 4 with the node's bytes exchanged") \
    F(NODE_WITH_5, "derivation: 5 with a node") \
    F(NO_SCHEME, "derivation: an acceptance without the scheme") \
    F(FALLS_BACK, "derivation, chosen by keys: DES where AES lacks a key") \
    F(DES_PREFERRED, "derivation, chosen by keys: DES before AES") \
    F(SERVICES_FIRST, "derivation: services before areas") \
    F(SYSTEM_LAST, "derivation, DES: the system's 4 after those of areas and services") \
    F(DERIVE_ROOM_FIRST, "derivation: 16 before 4") \
    F(DERIVE_LEAKS, "derivation: 16 with a byte written") \
    F(DERIVE_READS, "derivation: reads the byte behind the services") \
    F(GROUP_LAST, "derivation: the two keys exchanged") \
    F(SEARCH_LAST, "search: the last of two equal entries is found") \
    F(SEARCH_ALL, "search: walks to the last entry, and says so") \
    F(SEARCH_ZERO, "search: places are counted from 0") \
    F(SEARCH_MARKS, "search: 17 for an unknown algorithm in the list") \
    F(SEARCH_TWICE, "search: 2 for a key that stands twice") \
    F(SEARCH_MISSING, "search: 4 for an entry that is not there") \
    F(SEARCH_ANYWAY, "search: the algorithm of an entry that is not there") \
    F(SEARCH_ORDER, "search: 1 before 17") \
    F(SEARCH_SWAPPED, "search: finds an entry with the node's bytes exchanged") \
    F(SEARCH_BEHIND, "search: 1 for 128 entries whose last has the key sought") \
    F(BETA_1A, "1A: both ends under beta") \
    F(THIRD_SHORT, "1B, AES: both ends without the last byte of Challenge 3C") \
    F(THIRD_NONE, "2A, DES: takes a Challenge 3C of 0 bytes") \
    F(CHECK_7, "1B: 7 bytes are compared") \
    F(CHECK_NOT, "2B: 0 in the place of 13") \
    F(CHECK_LENGTH, "2B: takes a challenge that is too long") \
    F(IDM_9, "1A: takes an IDm of 9 bytes") \
    F(MARK_0, "2B: takes mark 0 as DES") \
    F(BLOCK_FIRST, "2A: 16 with a byte written") \
    F(BLOCK_BEHIND, "reading 2A, DES: writes the ninth byte") \
    F(RANDOM_PAST, "2B: reads the byte behind random 2") \
    F(KEYS_CHANGED, "reading 1A: changes the derived keys") \
    F(ROOM_BEFORE_MARK, "1B: 16 before 17") \
    F(SESSION_SWAPPED, "AES session keys: MAC key before cipher key") \
    F(SESSION_17, "AES session keys: takes a random 2 of 17 bytes") \
    F(SESSION_16, "AES session keys: content with an output of 16 bytes")

PLANTED(derivation, NULL)

// ---- derivation

// The inputs as the fault has them.
static uint64_t derive_from(DERIVED)
{
    volatile uint8_t read = 0;

    if (fault == KEYS_CUT) {
        keys_n -= keys_n % 19;
    }
    if (fault == LAST_ALGORITHM && keys_n >= 19 && keys_n % 19 == 0 && (keys[keys_n - 17] < 1 || keys[keys_n - 17] > 2)) {
        keys_n -= 19;
    }
    if (fault == INDIVIDUAL_8 && individual_n == 8) {
        individual_n = 0;
    }
    if (fault == INDIVIDUAL_ZEROS && individual_n == 16 && memcmp(individual, "\0\0\0\0\0\0\0\0\0\0\0\0\0\0\0", 16) == 0) {
        individual_n = 0;
    }
    if (fault == DERIVE_MARK_3 && mark == 3) {
        mark = 0;
    }
    if (fault == DERIVE_READS) {
        read = services[services_n];
    }
    (void)read;
    if (fault == SERVICES_FIRST) {
        return __real_felica_derive_auth_keys(mark, keys, keys_n, services, services_n, areas, areas_n, individual, individual_n, out,
                                              room);
    }
    return __real_felica_derive_auth_keys(PASS_DERIVED);
}

// Where the system's key is lacking: the answer with one.
static uint64_t with_system(DERIVED)
{
    static uint8_t more[129 * 19];
    uint64_t answer;

    memcpy(more, keys, keys_n);
    memset(more + keys_n, 0xFF, 19);
    more[keys_n + 2] = 1;
    keys = more;
    keys_n += 19;
    room = 0;
    answer = derive_from(PASS_DERIVED);
    return answer == 16 ? (uint64_t)0xFFFF << 32 | 4 : answer;
}

// What DES answers, if it accepts; else the answer as it was.
static uint64_t as_des(uint64_t answer, DERIVED)
{
    uint8_t whole[32];
    uint64_t des = __real_felica_derive_auth_keys(FELICA_SCHEME_DES, keys, keys_n, areas, areas_n, services, services_n, individual,
                                                  individual_n, whole, 32);

    if (mark != FELICA_SCHEME_BY_KEYS || des % 256 != 0 || room < 32) {
        return answer;
    }
    memcpy(out, whole, 16);
    return des;
}

// The same node and algorithm in two entries.
static int twice(bytes keys, size_t n)
{
    size_t i, k;

    for (i = 0; i + 19 <= n; i += 19) {
        for (k = 0; k < i; k += 19) {
            if (memcmp(keys + i, keys + k, 3) == 0) {
                return 1;
            }
        }
    }
    return 0;
}

// Another number, or other bits beside it.
static uint64_t spoil_number(uint64_t answer, bytes keys, size_t keys_n, size_t services_n, size_t room)
{
    uint64_t node = answer >> 32;

    switch (fault) {
    case KEYS_128:
        return keys_n == 128 * 19 && answer == 16 ? 1 : answer;
    case SERVICES_32:
        return services_n == 64 && answer == 16 ? 1 : answer;
    case TWICE_FIRST:
        return answer == 1 && twice(keys, keys_n) ? 2 : answer;
    case EMPTY_DES:
        return answer == 7 && services_n == 0 ? 3 : answer;
    case NO_NODE:
        return answer % 256 == 4 ? 4 : answer;
    case NODE_SWAPPED:
        return answer % 256 == 4 ? 4 | (node % 256 * 256 + node / 256) << 32 : answer;
    case NODE_WITH_5:
        return answer == 5 ? 5 | (uint64_t)1 << 32 : answer;
    case NO_SCHEME:
        return answer & ~(uint64_t)0xFF00;
    case DERIVE_ROOM_FIRST:
        return answer % 256 == 4 && room < 16 ? 16 : answer;
    default:
        return answer;
    }
}

// The answer to other inputs.
static uint64_t spoil_derivation(uint64_t answer, DERIVED)
{
    switch (fault) {
    case TWICE_NOT:
        keys_n -= 19;
        return answer == 2 ? derive_from(PASS_DERIVED) : answer;
    case FALLS_BACK:
        return answer == 5 ? as_des(answer, PASS_DERIVED) : answer;
    case DES_PREFERRED:
        return answer % 256 == 0 ? as_des(answer, PASS_DERIVED) : answer;
    case SYSTEM_LAST:
        return mark == 1 && answer == ((uint64_t)0xFFFF << 32 | 4) ? with_system(PASS_DERIVED) : answer;
    default:
        return answer;
    }
}

uint64_t __wrap_felica_derive_auth_keys(DERIVED)
{
    uint64_t answer = derive_from(PASS_DERIVED);
    uint8_t half[16];

    if (fault == DERIVE_LEAKS && answer == 16 && room != 0) {
        out[0] ^= 1;
    }
    if (fault == GROUP_LAST && felica_answer_length(answer) == 32) {
        memcpy(half, out, 16);
        memmove(out, out + 16, 16);
        memcpy(out + 16, half, 16);
    }
    answer = spoil_number(answer, keys, keys_n, services_n, room);
    return spoil_derivation(answer, PASS_DERIVED);
}

// ---- searches

// The last entry that is sought, from 1; 0 where there is none.
static uint64_t last_place(SEARCHED)
{
    uint64_t place = 0;
    size_t i;

    for (i = 0; i < keys_n; i += 19) {
        if (keys[i] == node % 256 && keys[i + 1] == node / 256 && keys[i + 2] == algorithm) {
            place = i / 19 + 1;
        }
    }
    return place;
}

static int unknown_algorithm(bytes keys, size_t n)
{
    size_t i;

    for (i = 0; i < n; i += 19) {
        if (keys[i + 2] != FELICA_ALGORITHM_DES && keys[i + 2] != FELICA_ALGORITHM_AES128) {
            return 1;
        }
    }
    return 0;
}

// An acceptance with a fault.
static uint64_t spoil_search(uint64_t answer, SEARCHED)
{
    int found = felica_answer_scheme(answer) != 0;

    switch (fault) {
    case SEARCH_LAST:
        return found ? (answer & 0xFFFF) | last_place(PASS_SEARCHED) << 16 : answer;
    case SEARCH_ALL:
        return (answer & 0xFFFF) | (uint64_t)(keys_n / 19) << 16;
    case SEARCH_ZERO:
        return found ? answer - ((uint64_t)1 << 16) : answer;
    case SEARCH_MARKS:
        return unknown_algorithm(keys, keys_n) ? 17 : answer;
    case SEARCH_TWICE:
        return twice(keys, keys_n) ? 2 : answer;
    case SEARCH_MISSING:
        return found ? answer : (uint64_t)node << 32 | 4;
    case SEARCH_ANYWAY:
        return answer | (uint64_t)algorithm << 8;
    case SEARCH_SWAPPED:
        return found ? answer : __real_felica_search_key(keys, keys_n, (uint16_t)(node % 256 * 256 + node / 256), algorithm);
    case SEARCH_BEHIND:
        return found && keys_n == 128 * 19 && felica_answer_count(answer) == 128 ? 1 : answer;
    default:
        return answer;
    }
}

uint64_t __wrap_felica_search_key(SEARCHED)
{
    uint64_t answer = __real_felica_search_key(PASS_SEARCHED);

    if (felica_answer_number(answer) == 0) {
        return spoil_search(answer, PASS_SEARCHED);
    }
    return fault == SEARCH_ORDER && answer == 17 && keys_n > 128 * 19 ? 1 : answer;
}

// ---- challenges

uint64_t __wrap_felica_encrypt_challenge1a(CHALLENGED, BLOCK, OUTPUT)
{
    if (fault == IDM_9 && idm_n == 9) {
        idm_n = 8;
    }
    if (fault == BETA_1A) {
        return __real_felica_encrypt_challenge1b(PASS_CHALLENGED, (bytes)"\0\0\0", 4, PASS_BLOCK, PASS_OUTPUT);
    }
    return __real_felica_encrypt_challenge1a(PASS_CHALLENGED, PASS_BLOCK, PASS_OUTPUT);
}

uint64_t __wrap_felica_decrypt_challenge1a(CHALLENGED, BLOCK, OUTPUT)
{
    uint64_t answer;

    if (fault == BETA_1A) {
        return __real_felica_decrypt_challenge2a(PASS_CHALLENGED, (bytes)"\0\0\0", 4, PASS_BLOCK, PASS_OUTPUT);
    }
    answer = __real_felica_decrypt_challenge1a(PASS_CHALLENGED, PASS_BLOCK, PASS_OUTPUT);
    if (fault == KEYS_CHANGED && answer % 256 == 0) {
        *(uint8_t *)(uintptr_t)keys ^= 1;
    }
    return answer;
}

// Challenge 3C without its last byte, at `to`.
static void cut_third(bytes third, uint8_t *to)
{
    memcpy(to, third, 3);
    to[3] = 0;
}

uint64_t __wrap_felica_encrypt_challenge1b(CHALLENGED, THIRD, BLOCK, OUTPUT)
{
    uint8_t other[4];

    if (fault == ROOM_BEFORE_MARK && room < 8) {
        return 16;
    }
    if (fault == THIRD_SHORT && third_n == 4) {
        cut_third(third, other);
        third = other;
    }
    return __real_felica_encrypt_challenge1b(PASS_CHALLENGED, PASS_THIRD, PASS_BLOCK, PASS_OUTPUT);
}

uint64_t __wrap_felica_verify_challenge1b(CHALLENGED, THIRD, BLOCK, CHECKED)
{
    uint8_t other[4], made[16];
    uint64_t answer;

    if (fault == THIRD_SHORT && third_n == 4) {
        cut_third(third, other);
        third = other;
    }
    answer = __real_felica_verify_challenge1b(PASS_CHALLENGED, PASS_THIRD, PASS_BLOCK, PASS_CHECKED);
    if (fault == CHECK_7 && answer == 13) {
        __real_felica_encrypt_challenge1b(PASS_CHALLENGED, PASS_THIRD, PASS_BLOCK, made, 16);
        return memcmp(made, checked, 7) == 0 ? 0 : 13;
    }
    return answer;
}

uint64_t __wrap_felica_encrypt_challenge2a(CHALLENGED, THIRD, BLOCK, OUTPUT)
{
    uint64_t answer;

    if (fault == THIRD_NONE && scheme == 1 && third_n == 0) {
        third = (bytes)"\0\0\0";
        third_n = 4;
    }
    answer = __real_felica_encrypt_challenge2a(PASS_CHALLENGED, PASS_THIRD, PASS_BLOCK, PASS_OUTPUT);
    if (fault == BLOCK_FIRST && answer == 16 && room != 0) {
        out[room - 1] ^= 1;
    }
    return answer;
}

uint64_t __wrap_felica_decrypt_challenge2a(CHALLENGED, THIRD, BLOCK, OUTPUT)
{
    uint64_t answer = __real_felica_decrypt_challenge2a(PASS_CHALLENGED, PASS_THIRD, PASS_BLOCK, PASS_OUTPUT);

    if (fault == BLOCK_BEHIND && felica_answer_length(answer) == 8 && room > 8) {
        out[8] ^= 1;
    }
    return answer;
}

uint64_t __wrap_felica_encrypt_challenge2b(CHALLENGED, BLOCK, OUTPUT)
{
    volatile uint8_t read = 0;

    if (fault == RANDOM_PAST) {
        read = block[n];
    }
    (void)read;
    if (fault == MARK_0 && scheme == 0) {
        scheme = 1;
    }
    return __real_felica_encrypt_challenge2b(PASS_CHALLENGED, PASS_BLOCK, PASS_OUTPUT);
}

uint64_t __wrap_felica_verify_challenge2b(CHALLENGED, BLOCK, CHECKED)
{
    uint64_t answer;

    if (fault == CHECK_LENGTH && checked_n > n) {
        checked_n = n;
    }
    answer = __real_felica_verify_challenge2b(PASS_CHALLENGED, PASS_BLOCK, PASS_CHECKED);
    return fault == CHECK_NOT && answer == 13 ? 0 : answer;
}

uint64_t __wrap_felica_derive_secure_session_keys(BLOCK, OUTPUT)
{
    uint8_t whole[32];
    uint64_t answer;

    if (fault == SESSION_17 && n == 17) {
        n = 16;
    }
    if (fault == SESSION_16 && n == 16 && room >= 16 && room < 32) {
        __real_felica_derive_secure_session_keys(PASS_BLOCK, whole, 32);
        memcpy(out, whole, 16);
        return 16 << 16;
    }
    answer = __real_felica_derive_secure_session_keys(PASS_BLOCK, PASS_OUTPUT);
    if (fault == SESSION_SWAPPED && answer % 256 == 0) {
        memcpy(whole, out, 16);
        memmove(out, out + 16, 16);
        memcpy(out + 16, whole, 16);
    }
    return answer;
}
