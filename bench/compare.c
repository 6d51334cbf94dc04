// Two archives of the library side by side, for bench/compare, which has made a shared library of each.
//
//     compare OLD NEW              compare all results, then time every row: a line for each, with its title, the nanoseconds of old and
//                                  new, the median of the ratios new/old, and their lower and upper quartile, parted by tabs
//     compare OLD NEW --count N    run each row N times in `counted`, first old, then new
//
// The status is 1 where results differ or an answer is not the row's, and 2 for a wrong call or a library that cannot be loaded.
#define _DEFAULT_SOURCE
#include "compare.h"
#include "rows.h"

#include <dlfcn.h>
#include <stdio.h>
#include <stdlib.h>
#include <string.h>
#include <time.h>

enum {
    OLD,
    NEW,
    SIDES,
    ROUNDS = 201,
    // How long a batch of the old one takes, at least, and the run before the first row, in nanoseconds.
    BATCH_TIME = 50000,
    WARM_UP_TIME = 300000000
};

static const struct compared *table[SIDES];
static int rows_n;
static void (*set_old_session)(struct work *);
static struct work works[INPUTS];

// ---- the two libraries

static int load(int side, const char *file)
{
    void *library = dlopen(file, RTLD_NOW | RTLD_LOCAL);

    if (library == NULL) {
        fprintf(stderr, "compare: %s\n", dlerror());
        return 1;
    }
    table[side] = dlsym(library, "compared_rows");
    rows_n = *(const int *)dlsym(library, "compared_rows_n");
    if (side == OLD)
        *(void **)&set_old_session = dlsym(library, "set_session");
    return 0;
}

// Sets what a row reads. What is given to it is made by the old library, for both.
static void set_works(int row)
{
    static uint8_t out[ROOM];
    const struct compared *r = &table[OLD][row];

    for (int i = 0; i < INPUTS; i++) {
        struct work *w = &works[i];

        w->in = &inputs[i];
        w->scheme = r->scheme;
        w->n = r->n;
        set_old_session(w);
        w->given_n = 0;
        if (r->make != NULL) {
            uint64_t answer;

            r->make(w, out);
            memcpy(&answer, out, ANSWER);
            w->given_n = felica_answer_length(answer);
            memcpy(w->given, out + ANSWER, w->given_n);
        }
    }
}

// ---- comparison

static int complain(int row, int input, const char *what)
{
    fprintf(stderr, "compare: %s: %s, at input %d\n", table[OLD][row].title, what, input);
    return 1;
}

// How many of a row's results are not the same on both sides, byte for byte, or have another answer than the row must have.
static int differences(int row)
{
    static uint8_t out[SIDES][ROOM];
    int found = 0;

    for (int i = 0; i < INPUTS; i++) {
        for (int side = 0; side < SIDES; side++) {
            memset(out[side], 0xa5, ROOM);
            table[side][row].run(&works[i], out[side]);
        }
        if (memcmp(out[OLD], out[NEW], ROOM) != 0)
            found += complain(row, i, "old and new differ");
        if (out[OLD][0] != table[OLD][row].refusal)
            found += complain(row, i, "the answer is not that of the row");
    }
    return found;
}

// ---- time

// Runs a call n times, over all inputs in turn.
static void run(call *c, long n)
{
    static uint8_t out[ROOM];
    int i = 0;

    while (n-- > 0) {
        c(&works[i], out);
        i = i + 1 == INPUTS ? 0 : i + 1;
    }
}

// Nanoseconds that this process has spent on a processor.
static double spent(void)
{
    struct timespec t;

    clock_gettime(CLOCK_PROCESS_CPUTIME_ID, &t);
    return (double)t.tv_sec * 1e9 + (double)t.tv_nsec;
}

static double time_of(int side, int row, long n)
{
    const double before = spent();

    run(table[side][row].run, n);
    return spent() - before;
}

static int by_size(const void *a, const void *b)
{
    const double x = *(const double *)a;
    const double y = *(const double *)b;

    return (x > y) - (x < y);
}

// The value that this many quarters of the sorted values are below.
static double quartile(double *values, int quarters)
{
    qsort(values, ROUNDS, sizeof values[0], by_size);
    return values[(ROUNDS - 1) * quarters / 4];
}

// Each round has four batches, one side twice between those of the other, so that what changes slowly is the same for both. The next
// round starts with the other side.
static void time_row(int row)
{
    static double times[SIDES][ROUNDS];
    static double ratios[ROUNDS];
    long n = INPUTS;

    while (time_of(OLD, row, n) < BATCH_TIME)
        n *= 2;
    for (int round = 0; round < ROUNDS; round++) {
        const int outer = round % SIDES;
        const int inner = SIDES - 1 - outer;

        times[outer][round] = time_of(outer, row, n);
        times[inner][round] = time_of(inner, row, n);
        times[inner][round] += time_of(inner, row, n);
        times[outer][round] += time_of(outer, row, n);
        ratios[round] = times[NEW][round] / times[OLD][round];
    }
    printf("%s\t%.1f\t%.1f\t%.3f\t%.3f\t%.3f\n", table[OLD][row].title, quartile(times[OLD], 2) / 2 / (double)n,
           quartile(times[NEW], 2) / 2 / (double)n, quartile(ratios, 2), quartile(ratios, 1), quartile(ratios, 3));
    fflush(stdout);
}

static int compare(void)
{
    const double before = spent();
    int found = 0;

    for (int row = 0; row < rows_n; row++) {
        set_works(row);
        found += differences(row);
    }
    if (found != 0)
        return 1;
    while (spent() - before < WARM_UP_TIME)
        run(table[OLD][0].run, INPUTS);
    for (int row = 0; row < rows_n; row++) {
        set_works(row);
        time_row(row);
    }
    return 0;
}

// ---- instructions

// What is counted, and nothing else: the name is given to callgrind.
__attribute__((noinline)) static void counted(call *c, long n)
{
    run(c, n);
}

// Each call has run before it is counted, so that all its functions are found already.
static void count(long n)
{
    for (int row = 0; row < rows_n; row++) {
        set_works(row);
        for (int side = 0; side < SIDES; side++) {
            run(table[side][row].run, INPUTS);
            counted(table[side][row].run, n);
        }
    }
}

int main(int argc, char **argv)
{
    fill_inputs();
    if (argc != 3 && (argc != 5 || strcmp(argv[3], "--count") != 0)) {
        fprintf(stderr, "usage: compare OLD NEW [--count N]\n");
        return 2;
    }
    if (load(OLD, argv[1]) != 0 || load(NEW, argv[2]) != 0)
        return 2;
    if (argc == 3)
        return compare();
    count(strtol(argv[4], NULL, 10));
    return 0;
}
