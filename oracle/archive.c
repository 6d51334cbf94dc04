// The library as C calls it, asked line by line: reads a call, makes it, and says what came of it.
//
//     archive           reads calls from stdin, a line each, and answers each with a line
//     archive NAME      the same with a fault made on purpose (plants.c)
//     archive --plants  the names of the faults
//
// A line: the operation, the place of the buffers (fence.h), the output's size, the fields that `operations` names. Numbers are in decimal,
// byte strings in hex, with '-' for the empty one. An answer: the 64 bits in hex, the bytes written, the session after the call ('-' where
// the operation has none), and `clean`, or what changed and may not: `input`, `before` and `behind` (the output, or the session), `rest`
// (of the output). A read or write outside the buffers gives `fault`, and ends the program.
#include "archive.h"

#include "../include/felica_secure.h"
#include "../tests/c/check.h"
#include "../tests/c/fence.h"
#include "../tests/c/sample.h"

#include <signal.h>
#include <stdio.h>
#include <stdlib.h>
#include <string.h>
#include <unistd.h>

// How far around the output and the session their surroundings are watched.
#define AROUND 64
#define DATA_MAX 70000
#define ROOM_MAX 80000
#define SESSION_MAX 1000

// ---- the calls

#define IN(k) c->in[k].at, c->in[k].n
#define OUT c->out.at, c->out.n
#define SESSION c->session.at, c->session.n
#define CALL(name, made) \
    static uint64_t name(const struct call *c) \
    { \
        return made; \
    }

CALL(derive, felica_derive_auth_keys(c->scheme, IN(0), IN(1), IN(2), IN(3), OUT))
CALL(search, felica_search_key(IN(0), c->number, c->scheme))
// IDm, keys, Challenge 3C, random or challenge, what is checked
CALL(make1a, felica_encrypt_challenge1a(c->scheme, IN(1), IN(0), IN(3), OUT))
CALL(read1a, felica_decrypt_challenge1a(c->scheme, IN(1), IN(0), IN(3), OUT))
CALL(make1b, felica_encrypt_challenge1b(c->scheme, IN(1), IN(0), IN(2), IN(3), OUT))
CALL(check1b, felica_verify_challenge1b(c->scheme, IN(1), IN(0), IN(2), IN(3), IN(4)))
CALL(make2a, felica_encrypt_challenge2a(c->scheme, IN(1), IN(0), IN(2), IN(3), OUT))
CALL(read2a, felica_decrypt_challenge2a(c->scheme, IN(1), IN(0), IN(2), IN(3), OUT))
CALL(make2b, felica_encrypt_challenge2b(c->scheme, IN(1), IN(0), IN(3), OUT))
CALL(check2b, felica_verify_challenge2b(c->scheme, IN(1), IN(0), IN(3), IN(4)))
CALL(session_keys, felica_derive_secure_session_keys(IN(2), OUT))
CALL(seal, felica_encrypt_command(c->scheme, c->code, c->number, IN(0), IN(1), IN(2), OUT))
CALL(frame, felica_build_secure_response_frame(c->scheme, c->code, c->number, IN(0), IN(1), IN(2), OUT))
CALL(opened, felica_decrypt_response(c->scheme, c->code, IN(0), IN(1), IN(2), OUT))
CALL(trimmed, felica_decrypt_response_trimmed_des(c->code, IN(0), IN(1), IN(2), OUT))
CALL(forecast, felica_forecast(c->scheme, c->length))
CALL(auth2seal, felica_encrypt_authentication2_payload_des(IN(0), IN(1), OUT))
CALL(auth2open_des, felica_decrypt_authentication2_payload_des(IN(0), IN(1), OUT))
CALL(auth2open_aes, felica_decrypt_authentication2_payload_v2_aes128(IN(0), IN(1), IN(2), OUT))
CALL(package, felica_generate_registration_package_des(IN(0), IN(1), OUT))
CALL(new_session, felica_session_new(c->scheme, c->number, IN(0), IN(1), IN(2), OUT))
CALL(new_with_ceiling, felica_session_new_with_ceiling(c->scheme, c->number, c->ceiling, IN(0), IN(1), IN(2), OUT))
CALL(step, felica_session_increment_transaction_number(SESSION))
CALL(set, felica_session_set_transaction_number(SESSION, c->number))
CALL(send_command, felica_session_encrypt_command(SESSION, c->code, IN(0), OUT))
CALL(receive, felica_session_apply_response(SESSION, c->code, IN(0), OUT))
CALL(node_index, felica_session_node_index(SESSION, c->number))
CALL(number, felica_session_transaction_number(SESSION))
CALL(count, felica_session_turned_away(SESSION))
CALL(ceiling, felica_session_ceiling(SESSION))
CALL(scheme, felica_session_scheme(SESSION))
CALL(id, felica_session_transaction_id(SESSION, OUT))
CALL(nodes, felica_session_nodes(SESSION, OUT))

// Fields: s scheme or mark, c code, n number or node, l ceiling, b bytes, z size, t how often the call is made. S are two: how many bytes of
// the session are handed over, and what is xored to their front for this call alone.
static const struct operation {
    const char *name;
    const char *fields;
    int writes;
    uint64_t (*call)(const struct call *c);
} operations[] = {
    {"derive", "sbbbb", 1, derive},
    {"search", "snb", 0, search},
    {"make1a", "sbbbb", 1, make1a},
    {"read1a", "sbbbb", 1, read1a},
    {"make1b", "sbbbb", 1, make1b},
    {"check1b", "sbbbbb", 0, check1b},
    {"make2a", "sbbbb", 1, make2a},
    {"read2a", "sbbbb", 1, read2a},
    {"make2b", "sbbbb", 1, make2b},
    {"check2b", "sbbbbb", 0, check2b},
    {"session_keys", "bbb", 1, session_keys},
    {"seal", "scnbbb", 1, seal},
    {"frame", "scnbbb", 1, frame},
    {"open", "scbbb", 1, opened},
    {"trimmed", "cbbb", 1, trimmed},
    {"forecast", "sz", 0, forecast},
    {"auth2seal", "bb", 1, auth2seal},
    {"auth2open_des", "bb", 1, auth2open_des},
    {"auth2open_aes", "bbb", 1, auth2open_aes},
    {"package", "bb", 1, package},
    {"new", "snbbb", 1, new_session},
    {"new_ceiling", "snbbbl", 1, new_with_ceiling},
    {"step", "S", 0, step},
    {"set", "Sn", 0, set},
    {"send", "Scb", 1, send_command},
    {"receive", "Sctb", 1, receive},
    {"index", "Sn", 0, node_index},
    {"number", "S", 0, number},
    {"count", "S", 0, count},
    {"ceiling", "S", 0, ceiling},
    {"scheme", "S", 0, scheme},
    {"id", "S", 1, id},
    {"nodes", "S", 1, nodes},
};
#define OPERATIONS (sizeof operations / sizeof operations[0])

// ---- a line

// The rest of the line.
static char *rest;
// What the line says: the call, the place of its buffers, its inputs, how many bytes of the session are handed over and what is xored to
// their front, how often the call is made.
static struct call call;
static enum place place;
static struct bytes given[INPUTS], mask;
static unsigned long times;

void check(int holds, const char *what)
{
    if (!holds) {
        fprintf(stderr, "archive: %s\n", what);
        exit(2);
    }
}

static char *word(void)
{
    char *field = strtok_r(NULL, " \n", &rest);

    check(field != NULL, "too few fields");
    return field;
}

static size_t number_up_to(size_t most)
{
    char *field = word(), *end;
    unsigned long long n = strtoull(field, &end, 10);

    check(*field >= '0' && *field <= '9' && *end == 0 && n <= most, "a number");
    return (size_t)n;
}

static unsigned digit(char c)
{
    check((c >= '0' && c <= '9') || (c >= 'a' && c <= 'f'), "a hex digit");
    return (unsigned)(c <= '9' ? c - '0' : c - 'a' + 10);
}

// The bytes of a field, put over it.
static struct bytes bytes(void)
{
    char *field = word();
    size_t n = strcmp(field, "-") == 0 ? 0 : strlen(field), i;
    struct bytes b = {(uint8_t *)field, n / 2};

    check(n % 2 == 0 && n / 2 <= DATA_MAX, "bytes");
    for (i = 0; i < n / 2; i++) {
        b.at[i] = (uint8_t)(digit(field[2 * i]) * 16 + digit(field[2 * i + 1]));
    }
    return b;
}

static void take(char field, int *taken)
{
    switch (field) {
    case 's':
        call.scheme = (uint8_t)number_up_to(255);
        break;
    case 'c':
        call.code = (uint8_t)number_up_to(255);
        break;
    case 'n':
        call.number = (uint16_t)number_up_to(65535);
        break;
    case 'l':
        call.ceiling = (uint16_t)number_up_to(65535);
        break;
    case 'z':
        call.length = number_up_to(SIZE_MAX);
        break;
    case 't':
        times = number_up_to(1000000);
        break;
    case 'S':
        call.session.n = number_up_to(SESSION_MAX);
        mask = bytes();
        break;
    default:
        given[(*taken)++] = bytes();
    }
}

static const struct operation *read_line(char *line)
{
    char *name = strtok_r(line, " \n", &rest);
    const char *field;
    size_t i = 0;
    int taken = 0;

    memset(&call, 0, sizeof call);
    memset(given, 0, sizeof given);
    times = 1;
    check(name != NULL, "an empty line");
    while (i < OPERATIONS && strcmp(name, operations[i].name) != 0) {
        i++;
    }
    check(i < OPERATIONS, "an unknown operation");
    call.operation = operations[i].name;
    place = (enum place)number_up_to(PLACES - 1);
    call.out.n = number_up_to(ROOM_MAX);
    for (field = operations[i].fields; *field != 0; field++) {
        take(*field, &taken);
    }
    check(strtok_r(NULL, " \n", &rest) == NULL, "too many fields");
    return &operations[i];
}

// ---- the call

// A buffer and what stands around it, as they were before the call.
struct watched {
    struct fence fence;
    uint8_t *low;
    uint8_t *high;
    uint8_t was[ROOM_MAX + 2 * AROUND];
};

static struct fence inputs[INPUTS];
static struct watched output, session;
// The session that the calls are about, kept from line to line.
static uint8_t held[FELICA_SESSION_SIZE];

// Places a buffer. It and what is around it get bytes that differ from call to call.
static void paint(struct watched *w, struct bytes *b)
{
    static unsigned painted;

    b->at = place_in(&w->fence, b->n, place);
    w->low = w->high = w->fence.start;
    if (b->at != NULL) {
        w->low = (size_t)(b->at - w->fence.start) < AROUND ? w->fence.start : b->at - AROUND;
        w->high = (size_t)(w->fence.end - b->at) - b->n < AROUND ? w->fence.end : b->at + b->n + AROUND;
    }
    memcpy(w->low, sample(++painted % 60000, (size_t)(w->high - w->low)).at, (size_t)(w->high - w->low));
}

static void watch(struct watched *w)
{
    memcpy(w->was, w->low, (size_t)(w->high - w->low));
}

// Whether the bytes from `from` up to `to` are as they were.
static int kept(const struct watched *w, const uint8_t *from, const uint8_t *to)
{
    return from == NULL || memcmp(from, w->was + (from - w->low), (size_t)(to - from)) == 0;
}

// The session as it is handed over, or taken back: its front is xored, and what is above its size is 0.
static void hand(int over)
{
    size_t i;

    for (i = 0; i < call.session.n; i++) {
        uint8_t front = i < mask.n ? mask.at[i] : 0;

        if (over) {
            call.session.at[i] = (uint8_t)((i < sizeof held ? held[i] : 0) ^ front);
        } else if (i < sizeof held) {
            held[i] = (uint8_t)(call.session.at[i] ^ front);
        }
    }
}

static void place_all(void)
{
    int i;

    for (i = 0; i < INPUTS; i++) {
        call.in[i].n = given[i].n;
        call.in[i].at = place_in(&inputs[i], given[i].n, place);
        if (given[i].n != 0) {
            memcpy(call.in[i].at, given[i].at, given[i].n);
        }
    }
    paint(&output, &call.out);
    watch(&output);
    paint(&session, &call.session);
    hand(1);
    watch(&session);
}

// What changed and may not. `written` bytes of the output may.
static const char *changed(size_t written)
{
    const uint8_t *out = call.out.at, *own = call.session.at;
    int i;

    for (i = 0; i < INPUTS; i++) {
        if (given[i].n != 0 && memcmp(call.in[i].at, given[i].at, given[i].n) != 0) {
            return "input";
        }
    }
    if (out != NULL && !kept(&output, output.low, out)) {
        return "before";
    }
    if (out != NULL && !kept(&output, out + call.out.n, output.high)) {
        return "behind";
    }
    if (out != NULL && !kept(&output, out + written, out + call.out.n)) {
        return "rest";
    }
    if (own != NULL && !kept(&session, session.low, own)) {
        return "before";
    }
    if (own != NULL && !kept(&session, own + (call.session.n < sizeof held ? call.session.n : sizeof held), session.high)) {
        return "behind";
    }
    return "clean";
}

static void print_bytes(const uint8_t *at, size_t n)
{
    static const char digits[] = "0123456789abcdef";
    size_t i;

    putchar(' ');
    for (i = 0; i < n; i++) {
        putchar(digits[at[i] >> 4]);
        putchar(digits[at[i] & 15]);
    }
    if (n == 0) {
        putchar('-');
    }
}

// Makes the call once. Answers whether nothing changed that may not.
static int run(const struct operation *o, int last)
{
    int about_session = o->fields[0] == 'S', made = o->call == new_session || o->call == new_with_ceiling;
    uint64_t answer;
    const char *what;
    size_t written;

    place_all();
    answer = planted(&call, held, o->call(&call));
    written = o->writes && felica_answer_number(answer) == 0 ? felica_answer_length(answer) : 0;
    // a length above the output's is an answer that differs
    written = written > call.out.n ? call.out.n : written;
    what = changed(written);
    hand(0);
    if (made) {
        // a refusal leaves none
        memset(held, 0, sizeof held);
        memcpy(held, call.out.at != NULL ? call.out.at : held, written < sizeof held ? written : sizeof held);
    }
    if (last || strcmp(what, "clean") != 0) {
        printf("%016llx", (unsigned long long)answer);
        print_bytes(call.out.at, written);
        print_bytes(held, about_session || made ? sizeof held : 0);
        printf(" %s\n", what);
        fflush(stdout);
        return 0;
    }
    return 1;
}

static void on_fault(int signal_number)
{
    (void)signal_number;
    _exit(write(STDOUT_FILENO, "fault\n", 6) == 6 ? 1 : 2);
}

static void prepare(void)
{
    int i;

    check(signal(SIGSEGV, on_fault) != SIG_ERR && signal(SIGBUS, on_fault) != SIG_ERR, "signal");
    for (i = 0; i < INPUTS; i++) {
        inputs[i] = fence_of(DATA_MAX + 1000);
    }
    output.fence = fence_of(ROOM_MAX + 1000);
    session.fence = fence_of(SESSION_MAX + 1000);
}

int main(int argc, char **argv)
{
    char *line = NULL;
    size_t room = 0;

    if (argc > 1 && strcmp(argv[1], "--plants") == 0) {
        list_plants();
        return 0;
    }
    check(argc < 2 || choose_plant(argv[1]), "no such fault");
    prepare();
    while (getline(&line, &room, stdin) > 0) {
        const struct operation *o = read_line(line);

        while (run(o, times <= 1)) {
            times--;
        }
    }
    free(line);
    return 0;
}
