// Faults on purpose, to see that the differential runs notice them (oracle/differential_test.py). Most show at a limit alone.
#include "archive.h"

#include "../include/felica_secure.h"

#include <stdio.h>
#include <string.h>

#define PLANTS(P) \
    P(BYTE, "byte", "sealing 243 bytes, AES: the last byte has its lowest bit changed") \
    P(NUMBER, "number", "opening 8 bytes, DES: 13 in the place of 11") \
    P(LENGTH, "length", "derivation: the length is one less") \
    P(REST, "rest", "opening: writes the byte behind the payload, inside the output") \
    P(BEFORE, "before", "response frame of 232 bytes: writes the byte before the output") \
    P(BEHIND, "behind", "Authentication 2, opening: writes the byte behind the output") \
    P(REFUSAL, "refusal", "AES session keys: 16 with a byte written") \
    P(INPUT, "input", "package of 4,096 bytes: changes its input") \
    P(TRANSACTION, "transaction", "opening: the high byte of the transaction number is lost") \
    P(NODE, "node", "derivation: 4 with the node's bytes exchanged") \
    P(SCHEME, "scheme", "derivation, chosen by keys: an acceptance without the scheme") \
    P(SEARCH, "search", "search: the last of equal entries is found") \
    P(SEARCH_NONE, "search_none", "search: one entry less is told where the one sought is not there") \
    P(HIGH_BIT, "high_bit", "checking 2B: 13 with bit 56") \
    P(PADDING_ONE, "padding_one", "sealing 231 bytes, DES: the padding is not told") \
    P(PADDING_AES, "padding_aes", "response frame, AES: tells what the payload lacks of whole blocks") \
    P(PADDING_REFUSED, "padding_refused", "Authentication 2, sealing: 16 with a padding") \
    P(FORECAST, "forecast", "forecast of 17 bytes, AES: one above the sealed size") \
    P(TRIM, "trim", "trimmed opening: a last byte of 7 drops nothing") \
    P(TRIM_LAST, "trim_last", "trimmed opening: a last byte of 3 drops three bytes, whatever they are") \
    P(CHECK, "check", "checking 1B: the last byte is not compared") \
    P(STEP, "step", "number step at 0xFFFF: 0 and the number 0") \
    P(ABOVE, "above", "number step: at the ceiling it is taken, and refused above it alone") \
    P(EARLY, "early", "number step: 9 one below the ceiling") \
    P(LOST, "lost", "number step: the ceiling goes to 0xFFFF") \
    P(NINE, "nine", "number step: 9 sets the number to the ceiling") \
    P(VERSION, "version", "number step: bytes of version 1 are taken") \
    P(CLIPS, "clips", "setting the number: not past the ceiling") \
    P(CLIPS_RESPONSE, "clips_response", "response step: the number does not go past the ceiling") \
    P(RAISED, "raised", "making: a ceiling below the number becomes the number") \
    P(NONE, "none", "making without a ceiling: it is 0xFFFE") \
    P(CEILING, "ceiling", "a session's ceiling: told as one more") \
    P(SET, "set", "setting the number: it does not go back") \
    P(INDEX, "index", "node index: the last place") \
    P(COUNT, "count", "response step: 14 is not counted") \
    P(COUNT_16, "count_16", "response step: 16 is counted") \
    P(WRAPS, "wraps", "response step: the count goes from 65,535 to 0") \
    P(EQUAL, "equal", "response step: takes the session's own number") \
    P(SESSION, "session", "a session's number: the call changes the session's last byte") \
    P(SESSION_BEHIND, "session_behind", "number step: writes the byte behind the session")

#define ENUM(mark, name, what) mark,
#define ROW(mark, name, what) {name, what},
enum { PLANTS(ENUM) COUNT_OF };
static const struct {
    const char *name;
    const char *what;
} plants[] = {PLANTS(ROW)};

static int plant = -1;

int choose_plant(const char *name)
{
    for (plant = 0; plant < COUNT_OF; plant++) {
        if (strcmp(name, plants[plant].name) == 0) {
            return 1;
        }
    }
    return 0;
}

void list_plants(void)
{
    int i;

    for (i = 0; i < COUNT_OF; i++) {
        printf("%s %s\n", plants[i].name, plants[i].what);
    }
}

// Where a session has its numbers.
enum { AT_NUMBER = 2, AT_CEILING = 4, AT_COUNT = 178 };

static int is(const struct call *c, const char *operation)
{
    return strcmp(c->operation, operation) == 0;
}

static unsigned pair(const uint8_t *at)
{
    return at[0] | (unsigned)at[1] << 8;
}

static void put_pair(uint8_t *at, unsigned n)
{
    at[0] = (uint8_t)n;
    at[1] = (uint8_t)(n >> 8);
}

// ---- what is written

static void in_memory(const struct call *c, uint64_t answer)
{
    unsigned number = felica_answer_number(answer);
    size_t length = felica_answer_length(answer);

    if (plant == BYTE && is(c, "seal") && number == 0 && c->scheme == FELICA_SCHEME_AES128 && c->in[2].n == FELICA_AES_PAYLOAD_MAX) {
        c->out.at[length - 1] ^= 1;
    }
    if (plant == REST && is(c, "open") && number == 0 && length < c->out.n) {
        c->out.at[length] ^= 1;
    }
    if (plant == BEFORE && is(c, "frame") && number == 0 && c->in[2].n == FELICA_DES_PAYLOAD_MAX) {
        c->out.at[-1] ^= 1;
    }
    if (plant == BEHIND && is(c, "auth2open_des") && number == 0) {
        c->out.at[c->out.n] ^= 1;
    }
    if (plant == REFUSAL && is(c, "session_keys") && number == FELICA_OUTPUT_TOO_SMALL && c->out.n != 0) {
        c->out.at[0] ^= 1;
    }
    if (plant == INPUT && is(c, "package") && c->in[1].n == FELICA_PACKAGE_MAX) {
        c->in[1].at[4000] ^= 1;
    }
    if (plant == SESSION && is(c, "number") && number == 0) {
        c->session.at[FELICA_SESSION_SIZE - 1] ^= 1;
    }
    if (plant == SESSION_BEHIND && is(c, "step") && number == 0) {
        c->session.at[c->session.n] ^= 1;
    }
}

// ---- what is answered

static uint64_t in_answer(const struct call *c, uint64_t answer)
{
    unsigned number = felica_answer_number(answer), node = felica_answer_node(answer);

    if (plant == NUMBER && is(c, "open") && number == FELICA_TOO_SHORT && c->in[2].n == 8 && c->scheme == FELICA_SCHEME_DES) {
        return FELICA_MAC_DIFFERS;
    }
    if (plant == LENGTH && is(c, "derive") && number == 0) {
        return answer - (1 << 16);
    }
    if (plant == TRANSACTION && is(c, "open")) {
        return answer & 0xFFFFFFFFFFu;
    }
    if (plant == NODE && is(c, "derive") && number == FELICA_KEY_MISSING) {
        return number | (uint64_t)(node >> 8 | (node & 255) << 8) << 32;
    }
    if (plant == SCHEME && is(c, "derive") && c->scheme == FELICA_SCHEME_BY_KEYS) {
        return answer & ~(uint64_t)0xFF00;
    }
    if (plant == HIGH_BIT && is(c, "check2b") && number == FELICA_MAC_DIFFERS) {
        return answer | (uint64_t)1 << 56;
    }
    if (plant == PADDING_ONE && is(c, "seal") && c->scheme == FELICA_SCHEME_DES && c->in[2].n == FELICA_DES_PAYLOAD_MAX - 1) {
        return answer & 0xFFFFFFFFFFFF;
    }
    if (plant == PADDING_AES && is(c, "frame") && number == 0 && c->scheme == FELICA_SCHEME_AES128) {
        return answer | (uint64_t)(-c->in[2].n % 8) << 48;
    }
    if (plant == PADDING_REFUSED && is(c, "auth2seal") && number == FELICA_OUTPUT_TOO_SMALL) {
        return answer | (uint64_t)(-c->in[1].n % 8) << 48;
    }
    if (plant == CEILING && is(c, "ceiling") && number == 0 && felica_answer_ceiling(answer) != FELICA_CEILING_NONE) {
        return answer + ((uint64_t)1 << 32);
    }
    if (plant == FORECAST && is(c, "forecast") && number == 0 && c->length == 17 && c->scheme == FELICA_SCHEME_AES128) {
        return (uint64_t)(17 + 10 + 1) << 16;
    }
    return answer;
}

// ---- what is decided

// The payload without its last `drops` bytes, where the last one is `last`.
static uint64_t trimmed(const struct call *c, uint64_t answer, unsigned last, size_t drops)
{
    uint8_t whole[256];
    uint64_t own = felica_decrypt_response(FELICA_SCHEME_DES, c->code, c->in[0].at, c->in[0].n, c->in[1].at, c->in[1].n, c->in[2].at,
                                           c->in[2].n, whole, sizeof whole);
    size_t n = felica_answer_length(own);

    if (n == 0 || whole[n - 1] != last || n - drops > c->out.n) {
        return answer;
    }
    memcpy(c->out.at, whole, n - drops);
    return own - ((uint64_t)drops << 16);
}

// The last of the entries that are sought.
static uint64_t last_entry(const struct call *c, uint64_t answer)
{
    const uint8_t *keys = c->in[0].at;
    size_t i;

    for (i = c->in[0].n / FELICA_KEY_ENTRY_SIZE; i-- > 0;) {
        const uint8_t *entry = keys + i * FELICA_KEY_ENTRY_SIZE;

        if (pair(entry) == c->number && entry[2] == c->scheme) {
            return (uint64_t)(i + 1) << 16 | (uint64_t)c->scheme << 8;
        }
    }
    return answer;
}

static uint64_t searched(const struct call *c, uint64_t answer)
{
    if (plant == SEARCH_NONE && felica_answer_scheme(answer) == 0 && answer != 0) {
        return answer - ((uint64_t)1 << 16);
    }
    return plant == SEARCH ? last_entry(c, answer) : answer;
}

static uint64_t first_bytes(const struct call *c, uint64_t answer)
{
    uint8_t own[FELICA_AES_BLOCK_SIZE];
    size_t n = c->in[4].n;

    felica_encrypt_challenge1b(c->scheme, c->in[1].at, c->in[1].n, c->in[0].at, c->in[0].n, c->in[2].at, c->in[2].n, c->in[3].at,
                               c->in[3].n, own, sizeof own);
    return answer == FELICA_MAC_DIFFERS && memcmp(own, c->in[4].at, n - 1) == 0 ? FELICA_OK : answer;
}

static uint64_t last_place(const uint8_t *before, unsigned node, uint64_t answer)
{
    unsigned i;

    for (i = pair(before + 6); i-- > 0;) {
        if (pair(before + 50 + 2 * i) == node) {
            return (uint64_t)i << 16;
        }
    }
    return answer;
}

// The session's own number taken, and the session otherwise as it was.
static uint64_t taken(const struct call *c, const uint8_t *before, uint64_t answer)
{
    uint8_t whole[256];
    size_t keys = before[1] == FELICA_SCHEME_DES ? FELICA_DES_KEY_SIZE : FELICA_AES_CREDENTIALS_SIZE;
    uint64_t own = felica_decrypt_response(before[1], c->code, before + 8, FELICA_ID_SIZE, before + 14, keys, c->in[0].at, c->in[0].n,
                                           whole, sizeof whole);

    if (felica_answer_transaction_number(own) != pair(before + AT_NUMBER) || felica_answer_length(own) > c->out.n) {
        return answer;
    }
    memcpy(c->session.at, before, FELICA_SESSION_SIZE);
    if (felica_answer_length(own) != 0) {
        memcpy(c->out.at, whole, felica_answer_length(own));
    }
    return own;
}

static uint64_t received(const struct call *c, const uint8_t *before, uint64_t answer)
{
    unsigned number = felica_answer_number(answer), count = pair(before + AT_COUNT), ceiling = pair(before + AT_CEILING);

    if (plant == COUNT && number == FELICA_ID_DIFFERS) {
        put_pair(c->session.at + AT_COUNT, count);
    }
    if (plant == COUNT_16 && number == FELICA_OUTPUT_TOO_SMALL) {
        put_pair(c->session.at + AT_COUNT, count + 1);
    }
    if (plant == WRAPS && number >= FELICA_NOT_WHOLE_BLOCKS && number <= FELICA_NUMBER_NOT_ABOVE) {
        put_pair(c->session.at + AT_COUNT, count + 1);
    }
    if (plant == CLIPS_RESPONSE && number == FELICA_OK && felica_answer_transaction_number(answer) > ceiling) {
        put_pair(c->session.at + AT_NUMBER, ceiling);
    }
    return plant == EQUAL && number == FELICA_NUMBER_NOT_ABOVE ? taken(c, before, answer) : answer;
}

static uint64_t stepped(const struct call *c, const uint8_t *before, uint64_t answer)
{
    unsigned number = pair(before + AT_NUMBER), ceiling = pair(before + AT_CEILING);

    if (plant == STEP && answer == FELICA_NUMBER_EXHAUSTED && number == 0xFFFF) {
        put_pair(c->session.at + AT_NUMBER, 0);
        return FELICA_OK;
    }
    if (plant == ABOVE && answer == FELICA_NUMBER_EXHAUSTED && number == ceiling && number != 0xFFFF) {
        put_pair(c->session.at + AT_NUMBER, number + 1);
        return (uint64_t)(number + 1) << 32;
    }
    if (plant == EARLY && felica_answer_number(answer) == FELICA_OK && number + 1 == ceiling) {
        put_pair(c->session.at + AT_NUMBER, number);
        return FELICA_NUMBER_EXHAUSTED;
    }
    if (plant == LOST && felica_answer_number(answer) == FELICA_OK) {
        put_pair(c->session.at + AT_CEILING, FELICA_CEILING_NONE);
    }
    if (plant == NINE && answer == FELICA_NUMBER_EXHAUSTED) {
        put_pair(c->session.at + AT_NUMBER, ceiling);
    }
    if (plant == VERSION && answer == FELICA_BAD_MARK_OR_LENGTH && c->session.n > AT_CEILING && c->session.at[0] == 1) {
        put_pair(c->session.at + AT_NUMBER, number + 1);
        return (uint64_t)(number + 1) << 32;
    }
    return answer;
}

// A making that was accepted.
static void created(const struct call *c)
{
    if (plant == RAISED && pair(c->out.at + AT_CEILING) < c->number) {
        put_pair(c->out.at + AT_CEILING, c->number);
    }
    if (plant == NONE && is(c, "new")) {
        put_pair(c->out.at + AT_CEILING, FELICA_CEILING_NONE - 1);
    }
}

uint64_t planted(const struct call *c, const uint8_t *before, uint64_t answer)
{
    in_memory(c, answer);
    if ((is(c, "new") || is(c, "new_ceiling")) && felica_answer_number(answer) == FELICA_OK) {
        created(c);
    }
    if (plant == TRIM && is(c, "trimmed") && felica_answer_number(answer) == 0) {
        return trimmed(c, answer, 7, 0);
    }
    if (plant == TRIM_LAST && is(c, "trimmed") && felica_answer_number(answer) == 0) {
        return trimmed(c, answer, 3, 3);
    }
    if (is(c, "search") && felica_answer_number(answer) == 0) {
        return searched(c, answer);
    }
    if (plant == CHECK && is(c, "check1b")) {
        return first_bytes(c, answer);
    }
    if (is(c, "step")) {
        return stepped(c, before, answer);
    }
    if (plant == SET && is(c, "set") && answer == FELICA_OK && c->number < pair(before + AT_NUMBER)) {
        put_pair(c->session.at + AT_NUMBER, pair(before + AT_NUMBER));
    }
    if (plant == CLIPS && is(c, "set") && answer == FELICA_OK && c->number > pair(before + AT_CEILING)) {
        put_pair(c->session.at + AT_NUMBER, pair(before + AT_CEILING));
    }
    if (plant == INDEX && is(c, "index") && felica_answer_number(answer) == 0) {
        return last_place(before, c->number, answer);
    }
    if (is(c, "receive")) {
        return received(c, before, answer);
    }
    return in_answer(c, answer);
}
