#include "parts.h"

#include "call.h"
#include "check.h"
#include "layout.h"
#include "model_session.h"

#include "../../include/felica_secure.h"

#include <stdio.h>
#include <stdlib.h>
#include <string.h>

// A case is a line: the operation, its inputs, the answer, parted by single blanks; byte strings in hex, '-' for the empty one. A last
// field 'departs' marks an answer that is this library's by its rules and not the original's. A line that starts with '#' is a comment.
struct form {
    const char *word;
    // the second field, where it says which operation it is
    const char *which;
    enum operation operation;
    // what the inputs are: scheme or mark, code, number, ID or IDm, keys or credentials, data, Challenge 3C, x for what is checked, areas,
    // v for services, p for an individual key, l for a session's nodes, - for what the C function does not take
    const char *inputs;
    // what stands behind the number: transaction number, node, mark, index, bytes
    const char *values;
};

static const struct form forms[] = {
    {"seal", NULL, SEAL, "scnikd", "b"},
    {"frame", NULL, FRAME, "scnikd", "b"},
    {"open", NULL, OPEN, "scikd", "tb"},
    {"auth2seal", NULL, AUTH2_SEAL, "kd", "b"},
    {"auth2open_des", NULL, AUTH2_OPEN_DES, "kd", "b"},
    {"auth2open_aes", NULL, AUTH2_OPEN_AES, "ikd", "tb"},
    {"package", NULL, PACKAGE, "kd", "b"},
    {"derive", NULL, DERIVE, "skavp", "nmb"},
    {"make", "1a", MAKE_1A, "sik-d", "b"},
    {"make", "1b", MAKE_1B, "sik3d", "b"},
    {"make", "2a", MAKE_2A, "sik3d", "b"},
    {"make", "2b", MAKE_2B, "sik-d", "b"},
    {"read", "1a", READ_1A, "sik-d", "b"},
    {"read", "2a", READ_2A, "sik3d", "b"},
    {"check", "1b", CHECK_1B, "sik3dx", ""},
    {"check", "2b", CHECK_2B, "sik-dx", ""},
    {"session_keys", NULL, SESSION_KEYS, "--d", "b"},
    {"step", NULL, STEP, "n", "t"},
    {"index", NULL, INDEX, "ln", "i"},
    {"apply", NULL, APPLY, "nikcd", "tb"},
};

#define FORMS (sizeof forms / sizeof forms[0])
#define LINE 100000
#define FIELDS 12

static int files;
static char **file_paths;
// Cases by operation and scheme; those without a known one count as of scheme 0.
static unsigned long seen[FORMS][3];
// All of them.
static unsigned long cases;

static unsigned long number_of(const char *field, unsigned long most)
{
    char *end;
    unsigned long n = strtoul(field, &end, 10);

    check(*field >= '0' && *field <= '9' && *end == 0 && n <= most, "a number in a stored answer");
    return n;
}

static unsigned digit(char c)
{
    const char *digits = "0123456789abcdef";
    const char *at = c == 0 ? NULL : strchr(digits, c);

    check(at != NULL, "a hex digit in a stored answer");
    return (unsigned)(at - digits);
}

// The bytes of a field, put over it.
static struct text bytes_of(char *field)
{
    size_t n = strcmp(field, "-") == 0 ? 0 : strlen(field), i;
    uint8_t *to = (uint8_t *)field;

    check(n % 2 == 0, "hex digits in a stored answer");
    for (i = 0; i < n / 2; i++) {
        to[i] = (uint8_t)(digit(field[2 * i]) * 16 + digit(field[2 * i + 1]));
    }
    return text_of(to, n / 2);
}

// Of each opened DES payload the trimmed opening gives all but its padding.
static void trimmed(struct call c, unsigned number, unsigned transaction, struct text payload)
{
    c.operation = TRIMMED;
    if (number != 0) {
        refuses(&c, number);
        return;
    }
    gives(&c, transaction, trimmed_size(payload), payload.at, NULL);
}

// A derivation's key list is searched for each of its nodes, with either algorithm and with one that there is not.
static void searched(struct call c)
{
    struct text keys = c.credentials;
    size_t at;

    c.operation = SEARCH;
    for (at = 0; at + 19 <= keys.n; at += 19) {
        c.number = (uint16_t)(keys.at[at] | keys.at[at + 1] << 8);
        for (c.scheme = 1; c.scheme <= 3; c.scheme++) {
            answers(&c, 0, (unsigned)at, search_answer(keys, c.number, c.scheme), NULL);
        }
    }
}

static void forecast(const struct call *c, unsigned number, size_t n)
{
    uint64_t answer = felica_forecast(c->scheme, c->data.n);

    check(answer == (number != 0 ? number : (uint64_t)n << 16), "a forecast is not the stored number or size");
}

// The answer and its bytes are those of the test's own model, where it has the operation.
static void as_modelled(const struct call *c, uint64_t answer, struct text wanted)
{
    struct modelled m;

    if (model_of(c, &m)) {
        check(m.answer == answer, "a stored answer is not the model's");
        check(wanted.n == 0 || memcmp(m.bytes, wanted.at, wanted.n) == 0, "the bytes of a stored answer are not the model's");
    }
}

// Where an input of bytes belongs; NULL for one that is none.
static struct text *text_for(struct call *c, char input)
{
    switch (input) {
    case 'i':
        return &c->id;
    case 'k':
        return &c->credentials;
    case '3':
        return &c->challenge_3c;
    case 'x':
        return &c->checked;
    case 'a':
        return &c->areas;
    case 'v':
        return &c->services;
    case 'p':
        return &c->individual;
    case 'l':
        return &c->nodes;
    case 'd':
        return &c->data;
    default:
        return NULL;
    }
}

static void take_input(struct call *c, char input, char *field)
{
    struct text *t = text_for(c, input);

    if (t != NULL) {
        *t = bytes_of(field);
    } else if (input == 's') {
        c->scheme = (uint8_t)number_of(field, 255);
    } else if (input == 'c') {
        c->code = (uint8_t)number_of(field, 255);
    } else if (input == 'n') {
        c->number = (uint16_t)number_of(field, 65535);
    }
}

// What a case says of its answer.
struct values {
    unsigned number, transaction, node, mark, index;
    struct text bytes;
};

static struct values values_of(const char *values, char **fields)
{
    struct values v;

    memset(&v, 0, sizeof v);
    v.number = (unsigned)number_of(*fields++, 17);
    for (; *values != 0; values++, fields++) {
        if (*values == 't') {
            v.transaction = (unsigned)number_of(*fields, 65535);
        } else if (*values == 'n') {
            v.node = (unsigned)number_of(*fields, 65535);
        } else if (*values == 'm') {
            v.mark = (unsigned)number_of(*fields, 2);
        } else if (*values == 'i') {
            v.index = (unsigned)number_of(*fields, 64);
        } else {
            v.bytes = bytes_of(*fields);
        }
    }
    check(v.number == FELICA_KEY_MISSING || v.node == 0, "a stored node without 4");
    check(v.number == 0 || (v.transaction == 0 && v.mark == 0 && v.index == 0 && v.bytes.n == 0),
          "a stored refusal with more than a number");
    return v;
}

// The 64 bits of such an answer. Of the values that share bits one is 0.
static uint64_t answer_of(const struct values *v)
{
    return v->number | (uint64_t)v->mark << 8 | (uint64_t)(v->bytes.n + v->index) << 16 | (uint64_t)(v->transaction + v->node) << 32;
}

// A session with what the case has, and the seed's for the rest.
static struct session session_for(const struct call *c, unsigned scheme)
{
    struct session s = session_of(scheme, 800, 2);

    if (c->operation == INDEX) {
        memset(s.nodes, 0, sizeof s.nodes);
        memcpy(s.nodes, c->nodes.at, c->nodes.n < sizeof s.nodes ? c->nodes.n : sizeof s.nodes);
        s.listed = (unsigned)c->nodes.n / 2;
        return s;
    }
    s.number = c->number;
    if (c->operation == APPLY) {
        memcpy(s.id, c->id.at, 6);
        memcpy(s.credentials, c->credentials.at, 8);
    }
    return s;
}

// The session is made, then called. The answer to an index is that of making, where this is turned down.
static void session_case(struct call c, const struct values *v, unsigned scheme)
{
    struct session s = session_for(&c, scheme);
    struct call making = making_of(&s);
    uint8_t before[RECORD], after[RECORD];

    if (c.operation == INDEX && v->number != 0) {
        making.nodes = c.nodes;
        refuses_in(&making, RECORD, v->number);
        return;
    }
    write_session(&s, before);
    makes(&making, before);
    s.number = v->number == 0 && c.operation != INDEX ? v->transaction : s.number;
    s.turned = c.operation == APPLY && v->number != 0;
    write_session(&s, after);
    c.session = text_of(before, RECORD);
    c.after = text_of(after, RECORD);
    as_modelled(&c, answer_of(v), v->bytes);
    if (v->number != 0) {
        refuses(&c, v->number);
    } else if (c.operation == INDEX) {
        tells(&c, answer_of(v));
    } else {
        gives(&c, v->transaction, v->bytes.n, v->bytes.at, NULL);
    }
}

static void plain_case(const struct call *c, const struct values *v)
{
    if (v->number != 0) {
        refuses(c, answer_of(v));
    } else if (c->operation == DERIVE) {
        derives(c, v->mark, v->bytes.n, v->bytes.at, NULL);
    } else {
        gives(c, v->transaction, v->bytes.n, v->bytes.at, NULL);
    }
    // the original does not tell the padding
    as_modelled(c, answer_of(v) | (v->number == 0 ? padding_bits(c) : 0), v->bytes);
    if (c->operation == OPEN && c->scheme == FELICA_SCHEME_DES) {
        trimmed(*c, v->number, v->transaction, v->bytes);
    }
    if (c->operation == DERIVE) {
        searched(*c);
    }
    if (c->operation == SEAL) {
        forecast(c, v->number, v->bytes.n);
    }
}

static void run_case(const struct form *f, char **fields, int count)
{
    struct call c;
    struct values v;
    const char *each;
    int at = f->which == NULL ? 1 : 2;

    memset(&c, 0, sizeof c);
    c.operation = f->operation;
    check(count == at + (int)strlen(f->inputs) + 1 + (int)strlen(f->values), "fields of a stored answer");
    for (each = f->inputs; *each != 0; each++) {
        take_input(&c, *each, fields[at++]);
    }
    v = values_of(f->values, fields + at);
    seen[f - forms][c.scheme <= 2 ? c.scheme : 0]++;
    if (family_of(f->operation) != family_session) {
        plain_case(&c, &v);
        return;
    }
    session_case(c, &v, FELICA_SCHEME_DES);
    // step and index are of no scheme
    if (f->operation != APPLY) {
        session_case(c, &v, FELICA_SCHEME_AES128);
    }
}

// Cases of other operations are not this test's.
static int is_known(const char *word)
{
    size_t i = 0;

    while (word != NULL && i < FORMS && strcmp(word, forms[i].word) != 0) {
        i++;
    }
    return word != NULL && i < FORMS;
}

static void run_line(char *line)
{
    char *fields[FIELDS];
    char *field = strtok(line, " ");
    size_t i = 0;
    int count = 0;

    if (!is_known(field)) {
        return;
    }
    for (; field != NULL; field = strtok(NULL, " ")) {
        check(count < FIELDS, "fields of a stored answer");
        fields[count++] = field;
    }
    if (strcmp(fields[count - 1], "departs") == 0) {
        count--;
    }
    check(count > 1, "fields of a stored answer");
    while (i < FORMS && (strcmp(fields[0], forms[i].word) != 0 || (forms[i].which != NULL && strcmp(fields[1], forms[i].which) != 0))) {
        i++;
    }
    check(i < FORMS, "a stored answer of an unknown kind");
    run_case(&forms[i], fields, count);
}

static void run_file(const char *path)
{
    static char line[LINE];
    FILE *f = fopen(path, "r");
    char *end;

    part(path);
    check(f != NULL, "the file cannot be opened");
    while (fgets(line, sizeof line, f) != NULL) {
        end = strchr(line, '\n');
        check(end != NULL, "a line is too long or has no end");
        *end = 0;
        if (line[0] != '#') {
            run_line(line);
        }
    }
    check(!ferror(f) && fclose(f) == 0, "the file cannot be read");
}

// Fails where an operation has no case in one of the schemes.
static void all_seen(void)
{
    unsigned scheme;
    size_t i;

    for (i = 0; i < FORMS; i++) {
        for (scheme = 0; scheme < 3; scheme++) {
            int has = forms[i].inputs[0] == 's' ? scheme != 0 || forms[i].operation == DERIVE : scheme == 0;

            check(!has || seen[i][scheme] != 0, "an operation with no stored answer");
            cases += seen[i][scheme];
        }
    }
}

void stored_files(int count, char **paths)
{
    files = count;
    file_paths = paths;
}

unsigned long stored_cases(void)
{
    return cases;
}

void stored(void)
{
    int i;

    for (i = 0; i < files; i++) {
        run_file(file_paths[i]);
    }
    part("stored answers");
    all_seen();
}
