// The session with a fault (faults.h).
#include "faults.h"

#include "model_session.h"

#include <string.h>

#define FAULTS(F) \
    F(NEW_ROOM, "new session: takes an output of 181 bytes") \
    F(NEW_65, "new session: 65 nodes are cut to 64") \
    F(NEW_64, "new session: 64 nodes are too many") \
    F(NEW_ORDER, "new session: 1 before 17") \
    F(NEW_COUNT, "new session: the count starts at 1") \
    F(NEW_NUMBER, "new session: the number has its bytes exchanged") \
    F(NEW_KEY, "new session, DES: a byte behind the key is not 0") \
    F(NEW_LEAKS, "new session: a refusal writes the version") \
    F(NEW_CEILING, "new session: a ceiling of 0xFFFE") \
    F(UNDER_NONE, "new session with a ceiling: it has none") \
    F(UNDER_EXCHANGED, "new session with a ceiling: number and ceiling exchanged") \
    F(UNDER_CLIPS, "new session with a ceiling: a number above it is set to it") \
    F(UNDER_REFUSES, "new session with a ceiling: 17 for a number above it") \
    F(UNDER_0, "new session with a ceiling, AES: a ceiling of 0 is none") \
    F(UNDER_65, "new session with a ceiling: 65 nodes are cut to 64") \
    F(CEILING_AT, "step: at the ceiling it steps, and refuses one above") \
    F(CEILING_BELOW, "step: 9 below the ceiling") \
    F(CEILING_ANY, "step: goes by 0xFFFF alone") \
    F(CEILING_FIRST, "step: 9 before 17") \
    F(CEILING_LOST, "step: the session has no ceiling after it") \
    F(CEILING_SET, "set: a number above the ceiling is set to it") \
    F(CEILING_NOT_SET, "set: a number above the ceiling is refused") \
    F(CEILING_RESPONSE, "response step: 15 for a number above the ceiling") \
    F(CEILING_SEALING, "session's sealing: 9 above the ceiling") \
    F(CEILING_COUNTED, "response step: no ceiling once the count is at its end") \
    F(CEILING_RAISED, "response step: the ceiling goes up with the number") \
    F(STEP_SIZE, "step: takes 181 bytes") \
    F(STEP_EARLY, "step: 9 at 0xFFFE") \
    F(STEP_AROUND, "step: from 0xFFFF to 0") \
    F(STEP_FORGETS, "step: the session keeps its number") \
    F(STEP_CARRY, "step: no carry into the number's high byte") \
    F(STEP_BEHIND, "step: writes the byte behind the session") \
    F(SET_BACK, "set: does not go back") \
    F(SET_RESETS, "set: the count is 0 after it") \
    F(SEAL_NEXT, "session's sealing: under the next number") \
    F(SEAL_ID, "session's sealing: the ID is read a byte too far") \
    F(SEAL_STEPS, "session's sealing: steps the number") \
    F(SEAL_PADDING, "session's sealing: does not tell the padding") \
    F(APPLY_VERSION, "response step: takes any version") \
    F(APPLY_NUMBER, "response step: the number is not set") \
    F(APPLY_SETS_15, "response step: 15 sets the number") \
    F(APPLY_SETS_16, "response step: 16 sets the number") \
    F(APPLY_EQUAL, "response step: takes the session's own number") \
    F(APPLY_16_FIRST, "response step: 16 before 15") \
    F(APPLY_15_FIRST, "response step: 15 in the place of 14") \
    F(APPLY_LEAKS, "response step: 15 with a byte written") \
    F(APPLY_WRITES, "response step: 16 with a byte written") \
    F(COUNT_NOT, "response step: 13 is not counted") \
    F(COUNT_15_NOT, "response step: 15 is not counted") \
    F(COUNT_16, "response step: 16 is counted") \
    F(COUNT_17, "response step: 17 is counted") \
    F(COUNT_TWICE, "response step: 12 is counted twice") \
    F(COUNT_AROUND, "response step: the count goes from 65,535 to 0") \
    F(COUNT_STOPS, "response step: the count stops at 65,534") \
    F(COUNT_255, "response step: the count stops at 255") \
    F(COUNT_RESET, "response step: an acceptance takes the count to 0") \
    F(INDEX_FORGED, "index: a number of nodes over 64 is cut to 64") \
    F(INDEX_LAST, "index: the last place") \
    F(INDEX_NONE, "index: 0 for a node that is not listed") \
    F(INDEX_ZEROS, "index: finds node 0 behind the list") \
    F(INDEX_BYTES, "index: the node's bytes exchanged") \
    F(TELL_HIGH, "session's number: its high byte is 0") \
    F(TELL_READS, "session's number: reads the byte behind the session") \
    F(TELL_CEILING_NUMBER, "session's ceiling: the number in its place") \
    F(TELL_CEILING_LENGTH, "session's ceiling: where the count has to be") \
    F(TELL_OLD, "session's count: takes version 1") \
    F(TELL_NUMBERS, "session's count: where the number has to be") \
    F(TELL_MARK, "session's scheme: takes mark 3") \
    F(TELL_LENGTH, "session's scheme: where the length has to be") \
    F(ID_FURTHER, "session's ID: from a byte further on") \
    F(ID_ROOM, "session's ID: content with 5 bytes") \
    F(NODES_ALL, "session's nodes: with the zeros behind them")

static void first(void)
{
    sessions();
    ceilings();
}

PLANTED(session, first)

static unsigned get(const uint8_t *session, int at)
{
    return session[at] + 256u * session[at + 1];
}

static void put(uint8_t *session, int at, unsigned n)
{
    session[at] = (uint8_t)(n % 256);
    session[at + 1] = (uint8_t)(n / 256);
}

// ---- making

static void spoil_made(uint8_t *session)
{
    if (fault == NEW_COUNT) {
        put(session, AT_COUNT, 1);
    }
    if (fault == NEW_NUMBER) {
        put(session, AT_NUMBER, session[AT_NUMBER] * 256u + session[AT_NUMBER + 1]);
    }
    if (fault == NEW_CEILING) {
        put(session, AT_CEILING, 0xFFFE);
    }
    if (fault == NEW_KEY && session[AT_SCHEME] == 1) {
        session[AT_CREDENTIALS + 35] = 1;
    }
}

uint64_t __wrap_felica_session_new(uint8_t scheme, uint16_t number, MADE)
{
    uint64_t answer;

    if (fault == NEW_ROOM && size == RECORD + 1) {
        size = RECORD;
    }
    if (fault == NEW_65 && nodes_n == 130) {
        nodes_n = 128;
    }
    if (fault == NEW_64 && nodes_n == 128 && size == RECORD) {
        return 1;
    }
    answer = __real_felica_session_new(scheme, number, PASS_MADE);
    if (answer % 256 == 0) {
        spoil_made(session);
    }
    if (fault == NEW_ORDER && nodes_n > 128 && answer == 17) {
        return 1;
    }
    if (fault == NEW_LEAKS && answer == 1) {
        session[AT_VERSION] = VERSION;
    }
    return answer;
}

uint64_t __wrap_felica_session_new_with_ceiling(uint8_t scheme, uint16_t number, uint16_t ceiling, MADE)
{
    if (fault == UNDER_NONE || (fault == UNDER_0 && ceiling == 0 && scheme == FELICA_SCHEME_AES128)) {
        ceiling = NO_CEILING;
    }
    if (fault == UNDER_CLIPS && number > ceiling) {
        number = ceiling;
    }
    if (fault == UNDER_REFUSES && number > ceiling) {
        return 17;
    }
    if (fault == UNDER_65 && nodes_n == 130) {
        nodes_n = 128;
    }
    if (fault == UNDER_EXCHANGED) {
        return __real_felica_session_new_with_ceiling(scheme, ceiling, number, PASS_MADE);
    }
    return __real_felica_session_new_with_ceiling(scheme, number, ceiling, PASS_MADE);
}

// ---- the number

// The step as the fault of a ceiling has it, which is one among the CEILING_ faults.
static uint64_t step_under(uint8_t *session, uint64_t answer)
{
    unsigned number = get(session, AT_NUMBER), ceiling = get(session, AT_CEILING);

    if (answer == 9 && number != 0xFFFF && ((fault == CEILING_AT && number == ceiling) || fault == CEILING_ANY)) {
        put(session, AT_NUMBER, number + 1);
        return (uint64_t)(number + 1) << 32;
    }
    if (fault == CEILING_BELOW && answer % 256 == 0 && number == ceiling) {
        put(session, AT_NUMBER, number - 1);
        return 9;
    }
    if (fault == CEILING_LOST && answer % 256 == 0) {
        put(session, AT_CEILING, NO_CEILING);
    }
    return answer;
}

uint64_t __wrap_felica_session_increment_transaction_number(KEPT)
{
    unsigned number = size == RECORD ? get(session, AT_NUMBER) : 0;
    uint64_t answer;

    if (fault == STEP_SIZE && size == RECORD + 1) {
        size = RECORD;
    }
    if (fault == CEILING_FIRST && size == RECORD && number >= get(session, AT_CEILING)) {
        return 9;
    }
    answer = __real_felica_session_increment_transaction_number(PASS_SESSION);
    if (fault == STEP_EARLY && number == 0xFFFE && answer % 256 == 0) {
        put(session, AT_NUMBER, number);
        return 9;
    }
    if (fault == STEP_AROUND && answer == 9) {
        put(session, AT_NUMBER, 0);
        return 0;
    }
    if (size == RECORD && answer != 17) {
        answer = step_under(session, answer);
    }
    if (fault == STEP_FORGETS && answer % 256 == 0) {
        put(session, AT_NUMBER, number);
    }
    if (fault == STEP_CARRY && answer % 256 == 0 && session[AT_NUMBER] == 0) {
        session[AT_NUMBER + 1]--;
        return (uint64_t)get(session, AT_NUMBER) << 32;
    }
    if (fault == STEP_BEHIND && answer % 256 == 0) {
        session[size] ^= 1;
    }
    return answer;
}

uint64_t __wrap_felica_session_set_transaction_number(KEPT, uint16_t number)
{
    unsigned before = size == RECORD ? get(session, AT_NUMBER) : 0, ceiling = size == RECORD ? get(session, AT_CEILING) : 0;
    uint64_t answer;

    if (fault == CEILING_NOT_SET && size == RECORD && number > ceiling) {
        return 9;
    }
    answer = __real_felica_session_set_transaction_number(session, size, number);
    if (fault == CEILING_SET && answer == 0 && number > ceiling) {
        put(session, AT_NUMBER, ceiling);
    }
    if (fault == SET_BACK && answer == 0 && number < before) {
        put(session, AT_NUMBER, before);
    }
    if (fault == SET_RESETS && answer == 0) {
        put(session, AT_COUNT, 0);
    }
    return answer;
}

// ---- sealing

uint64_t __wrap_felica_session_encrypt_command(SHOWN, EXCHANGED)
{
    uint8_t other[RECORD];
    uint64_t answer;

    if (fault == CEILING_SEALING && size == RECORD && get(session, AT_NUMBER) > get(session, AT_CEILING)) {
        return 9;
    }
    if ((fault == SEAL_NEXT || fault == SEAL_ID) && size == RECORD) {
        memcpy(other, session, RECORD);
        if (fault == SEAL_NEXT) {
            put(other, AT_NUMBER, (get(other, AT_NUMBER) + 1) % 65536);
        } else {
            memmove(other + AT_ID, session + AT_ID + 1, 6);
        }
        return __real_felica_session_encrypt_command(other, size, PASS_EXCHANGED);
    }
    answer = __real_felica_session_encrypt_command(PASS_SESSION, PASS_EXCHANGED);
    if (fault == SEAL_STEPS && answer % 256 == 0) {
        __real_felica_session_increment_transaction_number((uint8_t *)(uintptr_t)session, size);
    }
    return fault == SEAL_PADDING ? answer & 0xFF00FFFFFFFFFFFF : answer;
}

// ---- the response step

// The number of a response that opens, or 0.
static unsigned number_of(const uint8_t *session, uint8_t code, const uint8_t *data, size_t n)
{
    uint8_t other[RECORD], out[256];

    memcpy(other, session, RECORD);
    put(other, AT_NUMBER, 0);
    return (unsigned)(__real_felica_session_apply_response(other, RECORD, code, data, n, out, 256) >> 32);
}

// The session as the fault has it after a refusal; `before` it was turned down with it.
static void spoil_count(uint8_t *session, const uint8_t *before, uint64_t answer)
{
    unsigned was = get(before, AT_COUNT);

    switch (fault) {
    case COUNT_NOT:
        put(session, AT_COUNT, answer == 13 ? was : get(session, AT_COUNT));
        break;
    case COUNT_15_NOT:
        put(session, AT_COUNT, answer == 15 ? was : get(session, AT_COUNT));
        break;
    case COUNT_16:
        put(session, AT_COUNT, answer == 16 && was < 65535 ? was + 1 : get(session, AT_COUNT));
        break;
    case COUNT_TWICE:
        put(session, AT_COUNT, answer == 12 && was < 65534 ? was + 2 : get(session, AT_COUNT));
        break;
    case COUNT_AROUND:
        put(session, AT_COUNT, answer <= 15 && was == 65535 ? 0 : get(session, AT_COUNT));
        break;
    case COUNT_STOPS:
        put(session, AT_COUNT, was == 65534 ? was : get(session, AT_COUNT));
        break;
    case COUNT_255:
        put(session, AT_COUNT, was == 255 ? was : get(session, AT_COUNT));
        break;
    default:
        break;
    }
}

// Another answer than that to a response which opens, where the fault has one.
static uint64_t spoil_order(uint8_t *session, const uint8_t *before, uint64_t answer, EXCHANGED)
{
    uint8_t other[RECORD], whole[256];
    uint64_t again;

    memcpy(other, before, RECORD);
    if (fault == APPLY_EQUAL && answer == 15 && get(before, AT_NUMBER) > 0) {
        put(other, AT_NUMBER, get(before, AT_NUMBER) - 1);
        again = __real_felica_session_apply_response(other, RECORD, PASS_EXCHANGED);
        if (again % 256 == 0) {
            memcpy(session, other, RECORD);
            return again;
        }
    }
    if (fault == APPLY_16_FIRST && answer == 15 && room < n - (before[AT_SCHEME] == 1 ? 16 : 10)) {
        memcpy(session, before, RECORD);
        return 16;
    }
    if (fault == APPLY_15_FIRST && answer == 14) {
        return 15;
    }
    if (fault == APPLY_SETS_15 && answer == 15) {
        put(session, AT_NUMBER, number_of(before, code, data, n));
    }
    if (fault == APPLY_SETS_16 && answer == 16) {
        __real_felica_session_apply_response(session, RECORD, code, data, n, whole, 256);
    }
    return answer;
}

static uint64_t spoil_response(uint8_t *session, const uint8_t *before, uint64_t answer, EXCHANGED)
{
    if (answer % 256 == 0) {
        if (fault == APPLY_NUMBER) {
            memcpy(session, before, RECORD);
        }
        if (fault == COUNT_RESET) {
            put(session, AT_COUNT, 0);
        }
        if (fault == CEILING_RESPONSE && get(session, AT_NUMBER) > get(session, AT_CEILING)) {
            memcpy(session, before, RECORD);
            return 15;
        }
        if (fault == CEILING_RAISED && get(session, AT_NUMBER) > get(session, AT_CEILING)) {
            put(session, AT_CEILING, get(session, AT_NUMBER));
        }
        return answer;
    }
    if (room != 0 && ((fault == APPLY_LEAKS && answer == 15) || (fault == APPLY_WRITES && answer == 16))) {
        out[0] ^= 1;
    }
    if (fault == CEILING_COUNTED && get(session, AT_COUNT) == 65535) {
        put(session, AT_CEILING, NO_CEILING);
    }
    spoil_count(session, before, answer);
    return spoil_order(session, before, answer, PASS_EXCHANGED);
}

uint64_t __wrap_felica_session_apply_response(KEPT, EXCHANGED)
{
    uint8_t before[RECORD], version;
    uint64_t answer;

    if (size != RECORD) {
        return __real_felica_session_apply_response(PASS_SESSION, PASS_EXCHANGED);
    }
    memcpy(before, session, RECORD);
    version = session[AT_VERSION];
    if (fault == APPLY_VERSION) {
        session[AT_VERSION] = VERSION;
    }
    answer = __real_felica_session_apply_response(PASS_SESSION, PASS_EXCHANGED);
    session[AT_VERSION] = version;
    if (answer == 17) {
        session[AT_COUNT] ^= fault == COUNT_17;
        return answer;
    }
    return spoil_response(session, before, answer, PASS_EXCHANGED);
}

// ---- what is told

// A session that says more than 64 nodes, as one of 64.
static uint64_t index_of_forged(SHOWN, uint16_t node)
{
    uint8_t other[RECORD];

    memcpy(other, session, size);
    put(other, AT_LISTED, 64);
    return __real_felica_session_node_index(other, size, node);
}

uint64_t __wrap_felica_session_node_index(SHOWN, uint16_t node)
{
    uint64_t answer;
    unsigned i, last = 64;

    if (fault == INDEX_FORGED && size == RECORD && get(session, AT_LISTED) > 64) {
        return index_of_forged(PASS_SESSION, node);
    }
    if (fault == INDEX_BYTES) {
        node = (uint16_t)(node % 256 * 256 + node / 256);
    }
    answer = __real_felica_session_node_index(session, size, node);
    if (answer % 256 != 0) {
        return answer;
    }
    if (fault == INDEX_NONE && answer >> 16 == 64) {
        return 0;
    }
    for (i = 0; i < 64; i++) {
        last = get(session, AT_NODES + 2 * (int)i) == node ? i : last;
    }
    if (fault == INDEX_LAST && answer >> 16 != 64) {
        return (uint64_t)last << 16;
    }
    if (fault == INDEX_ZEROS && answer >> 16 == 64 && node == 0) {
        return (uint64_t)last << 16;
    }
    return answer;
}

uint64_t __wrap_felica_session_transaction_number(SHOWN)
{
    volatile uint8_t read = 0;

    if (fault == TELL_READS) {
        read = session[size];
    }
    (void)read;
    return __real_felica_session_transaction_number(PASS_SESSION) & (fault == TELL_HIGH ? 0xFFFFFFFFFFu : UINT64_MAX);
}

uint64_t __wrap_felica_session_ceiling(SHOWN)
{
    uint64_t answer = __real_felica_session_ceiling(PASS_SESSION);

    if (fault == TELL_CEILING_NUMBER && answer % 256 == 0) {
        return __real_felica_session_transaction_number(PASS_SESSION);
    }
    return fault == TELL_CEILING_LENGTH && answer % 256 == 0 ? answer >> 16 : answer;
}

uint64_t __wrap_felica_session_turned_away(SHOWN)
{
    uint8_t other[RECORD];
    uint64_t answer;

    if (fault == TELL_OLD && size == RECORD && session[AT_VERSION] == 1) {
        memcpy(other, session, RECORD);
        other[AT_VERSION] = VERSION;
        return __real_felica_session_turned_away(other, RECORD);
    }
    answer = __real_felica_session_turned_away(PASS_SESSION);
    return fault == TELL_NUMBERS && answer % 256 == 0 ? answer << 16 : answer;
}

uint64_t __wrap_felica_session_scheme(SHOWN)
{
    uint64_t answer = __real_felica_session_scheme(PASS_SESSION);

    if (fault == TELL_MARK && answer == 17 && size == RECORD && session[AT_VERSION] == VERSION && session[AT_SCHEME] == 3) {
        return 3 << 8;
    }
    return fault == TELL_LENGTH && answer % 256 == 0 ? answer << 8 : answer;
}

uint64_t __wrap_felica_session_transaction_id(SHOWN, OUTPUT)
{
    uint64_t answer = __real_felica_session_transaction_id(PASS_SESSION, PASS_OUTPUT);

    if (fault == ID_FURTHER && answer % 256 == 0) {
        memcpy(out, session + AT_ID + 1, 6);
    }
    if (fault == ID_ROOM && answer == 16 && room == 5) {
        memcpy(out, session + AT_ID, 5);
        return 5 << 16;
    }
    return answer;
}

uint64_t __wrap_felica_session_nodes(SHOWN, OUTPUT)
{
    uint64_t answer = __real_felica_session_nodes(PASS_SESSION, PASS_OUTPUT);

    if (fault == NODES_ALL && answer % 256 == 0 && room >= 128) {
        memcpy(out, session + AT_NODES, 128);
        return 128 << 16;
    }
    return answer;
}
