// The harness: each input of the fuzzer is a call (decode.c), which is made several times over.
#include "shot.h"

#include "../c/check.h"
#include "../c/fence.h"

#include "../../include/felica_secure.h"

#include <stdio.h>
#include <stdlib.h>
#include <string.h>

#define NUMBERS 18
#define CLASSES 8

// The archive has no coverage counters, so these stand in for them: operation, number and class of length of what was called.
__attribute__((section("__libfuzzer_extra_counters"))) static uint8_t counters[OPERATIONS * NUMBERS * CLASSES];

static unsigned long tally[OPERATIONS][NUMBERS];
static struct shot shot;

int LLVMFuzzerInitialize(int *argc, char ***argv);
int LLVMFuzzerTestOneInput(const uint8_t *data, size_t n);

void check(int holds, const char *what)
{
    if (!holds) {
        fprintf(stderr, "fuzz: FOUND: %s: %s (mark %u, room %zu, data %zu, place %u)\n", name_of(shot.op), what, shot.scheme, shot.room,
                shot.in[IN_DATA].n, shot.place);
        abort();
    }
}

// The calls of an operation by their answers, and its numbers that no call answered.
static void print_operation(enum operation op)
{
    unsigned long own = numbers_of(op, FELICA_SCHEME_DES) | numbers_of(op, FELICA_SCHEME_AES128), all = 0;
    int k;

    for (k = 0; k < NUMBERS; k++) {
        all += tally[op][k];
    }
    fprintf(stderr, "tally: | %s | %lu |", name_of(op), all);
    for (k = 0; k < NUMBERS; k++) {
        if (tally[op][k] != 0) {
            fprintf(stderr, " %d: %lu", k, tally[op][k]);
        } else if ((own >> k & 1) != 0) {
            fprintf(stderr, " %d: NEVER", k);
        }
    }
    fprintf(stderr, " |\n");
}

static void print_tally(void)
{
    int op;

    for (op = 0; op < OPERATIONS; op++) {
        print_operation((enum operation)op);
    }
}

static unsigned class_of(size_t n)
{
    static const size_t ends[CLASSES - 1] = {1, 8, 16, 64, 233, 244, 254};
    unsigned i;

    for (i = 0; i < CLASSES - 1 && n >= ends[i]; i++) {
    }
    return i;
}

static void count(uint64_t answer)
{
    unsigned number = felica_answer_number(answer);

    tally[shot.op][number]++;
    counters[(shot.op * NUMBERS + number) * CLASSES + class_of(shot.in[IN_DATA].n)] = 1;
}

int LLVMFuzzerInitialize(int *argc, char ***argv)
{
    (void)argc;
    (void)argv;
    atexit(print_tally);
    return 0;
}

// In an output of just its size an accepted call gives the same, in one that is a byte smaller it is refused.
static void fits(const struct result *first)
{
    static struct result r;
    size_t n = felica_answer_length(first->answer);

    fire(&shot, n, AT_END, 0x3C, &r);
    check(r.answer == first->answer && memcmp(r.out, first->out, n) == 0, "another answer in an output that just fits");
    count(r.answer);
    if (n != 0) {
        fire(&shot, n - 1, AT_START, 0x3C, &r);
        check(r.answer == (makes_session(shot.op) ? FELICA_BAD_MARK_OR_LENGTH : FELICA_OUTPUT_TOO_SMALL), "an output that is too small");
        session_after(&shot, &r);
        count(r.answer);
    }
}

int LLVMFuzzerTestOneInput(const uint8_t *data, size_t n)
{
    static struct result first, again;
    size_t length;

    decode(data, n, &shot);
    fire(&shot, shot.room, shot.place, 0xA5, &first);
    session_after(&shot, &first);
    count(first.answer);

    // other ink, so that a byte that was not written shows; other places, so that both ends of each buffer stand at a fence
    fire(&shot, shot.room, shot.place == AT_END ? AT_START : AT_END, 0x5A, &again);
    length = takes(shot.op, TAKES_OUT) ? felica_answer_length(first.answer) : 0;
    check(again.answer == first.answer && memcmp(again.out, first.out, length) == 0, "another answer the second time");
    check(memcmp(again.session, first.session, shot.in[IN_SESSION].n) == 0, "another session the second time");
    count(again.answer);

    inverse(&shot, &first);
    if (felica_answer_number(first.answer) == 0 && takes(shot.op, TAKES_OUT)) {
        fits(&first);
    }
    return 0;
}
