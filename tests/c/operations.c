#include "operations.h"

#include "../../include/felica_secure.h"

// ---- names, families, traits

#define NAME(word, family, function, ...) #function,
#define FAMILY(word, family, ...) family_##family,
#define TRAITS(word, family, function, arguments, numbers, traits) traits,

const char *name_of(enum operation operation)
{
    static const char *const names[OPERATIONS] = {OPERATION_LIST(NAME)};

    return names[operation];
}

enum family family_of(enum operation operation)
{
    static const enum family families[OPERATIONS] = {OPERATION_LIST(FAMILY)};

    return families[operation];
}

int has_trait(enum operation operation, enum trait trait)
{
    static const unsigned traits[OPERATIONS] = {OPERATION_LIST(TRAITS)};

    return (traits[operation] & trait) != 0;
}

unsigned scheme_of(enum operation operation, unsigned mark)
{
    if (has_trait(operation, OF_DES)) {
        return FELICA_SCHEME_DES;
    }
    return has_trait(operation, OF_AES) ? FELICA_SCHEME_AES128 : mark;
}

unsigned mark_of(enum operation operation, unsigned scheme, struct text session)
{
    if (!takes(operation, IN_SESSION)) {
        return scheme;
    }
    return session.n > 1 ? session.at[1] : 0;
}

// DES: number 2, ID 6, MAC 8. AES: number 2, MAC 8. A frame has length byte and code before it; Authentication 2 has its MAC alone.
size_t around_of(enum operation operation, unsigned mark)
{
    if (operation == AUTH2_SEAL) {
        return 8;
    }
    return (mark == FELICA_SCHEME_DES ? 16 : 10) + (operation == FRAME ? 2 : 0);
}

// ---- numbers, as bits

#define N(k) (1ul << (k))
#define SEALING (N(12) | N(16))
#define OPENING (N(11) | N(12) | N(13) | N(16) | (scheme == FELICA_SCHEME_DES ? N(10) | N(14) : 0))
#define NUMBERS(word, family, function, arguments, numbers, traits) \
    case word: \
        return N(0) | N(17) | (numbers);

unsigned long numbers_of(enum operation operation, unsigned mark)
{
    unsigned scheme = scheme_of(operation, mark);

    switch (operation) {
        OPERATION_LIST(NUMBERS)
    default:
        return 0;
    }
}

// ---- arguments: first as what they are, then as what is passed

#define MOST_ARGUMENTS 7
#define SCHEME TAKES_SCHEME
#define CODE TAKES_CODE
#define NUMBER TAKES_NUMBER
#define CEILING TAKES_CEILING
#define OUT TAKES_OUT
#define IN(which) IN_##which
#define LENGTH(which) TAKES_LENGTH
#define EACH(...) __VA_ARGS__
#define ARGUMENTS(word, family, function, arguments, numbers, traits) {EACH arguments, INPUTS},

int takes(enum operation operation, enum argument argument)
{
    static const enum argument all[OPERATIONS][MOST_ARGUMENTS + 1] = {OPERATION_LIST(ARGUMENTS)};
    int i;

    for (i = 0; all[operation][i] != INPUTS; i++) {
        if (all[operation][i] == argument) {
            return 1;
        }
    }
    return 0;
}

#undef SCHEME
#undef CODE
#undef NUMBER
#undef CEILING
#undef OUT
#undef IN
#undef LENGTH
#define SCHEME g->scheme
#define CODE g->code
#define NUMBER g->number
#define CEILING g->ceiling
#define OUT out, room
#define IN(which) in[IN_##which], g->in[IN_##which].n
#define LENGTH(which) g->in[IN_##which].n
#define CALL(word, family, function, arguments, numbers, traits) \
    case word: \
        return function arguments;

uint64_t invoke(const struct given *g, uint8_t *const *in, uint8_t *out, size_t room)
{
    switch (g->operation) {
        OPERATION_LIST(CALL)
    default:
        return UINT64_MAX;
    }
}
