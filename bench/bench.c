// Speed of the proved functions beside other libraries, as a Markdown table of times and ratios.
//
//     bench              compare all results, then time every row
//     bench --list       a line for each row and column that has it: what the row measures, the column's title, and the blocks that the
//                        cost is divided by, parted by tabs
//     bench --count N    run each of these N times in `counted`, in that order, for bench/run
//
// The status is 1 where two contestants differ in a result or one accepts what was changed, and 2 for a wrong call.
#define _DEFAULT_SOURCE
#include "contestants.h"
#include "rows.h"

#include <cpuid.h>
#include <stdio.h>
#include <stdlib.h>
#include <string.h>
#include <time.h>
#include <unistd.h>

enum {
    ROUNDS = 51,
    // How long a batch of our operation takes, at least, and the run before the first one, in nanoseconds.
    BATCH_TIME = 1000000,
    WARM_UP_TIME = 500000000
};

// ---- comparison. All results are compared with those of the first peer, which also makes what is given to a row.

// Rows that our archive has no function for are left out.
static int is_there(int row)
{
    return operation_of(OURS, row) != NULL;
}

static int complain(int row, int column, int input, const char *what)
{
    fprintf(stderr, "bench: %s: %s %s, at input %d\n", rows[row].name, columns[column].title, what, input);
    return 1;
}

// How many of a row's results are not those of the first peer; each is named on standard error.
static int differences(int row)
{
    static uint8_t wanted[LONG_TEXT];
    static uint8_t got[LONG_TEXT];
    const size_t n = rows[row].result;
    int found = 0;

    for (int i = 0; i < INPUTS; i++) {
        operation_of(TOMCRYPT, row)(&inputs[i], wanted);
        for (int c = 0; c < columns_n; c++) {
            if (operation_of(c, row) == NULL)
                continue;
            memset(got, 0xa5 + c, n);
            operation_of(c, row)(&inputs[i], got);
            if (memcmp(got, wanted, n) != 0)
                found += complain(row, c, i, "differs from the first peer");
        }
    }
    return found;
}

// How many columns do not give this answer to an input; each is named on standard error.
static int not_answering(int row, int input, uint64_t wanted)
{
    static uint8_t got[LONG_TEXT];
    int found = 0;

    for (int c = 0; c < columns_n; c++) {
        if (operation_of(c, row) == NULL)
            continue;
        operation_of(c, row)(&inputs[input], got);
        if (memcmp(got, &wanted, ANSWER) != 0)
            found += complain(row, c, input, "does not refuse what was changed");
    }
    return found;
}

// The same where a byte of what is given to the row is changed. The changed bytes lie all over it.
static int accepting_changed(int row)
{
    int found = 0;

    for (int i = 0; i < INPUTS && rows[row].refusal != 0; i++) {
        uint8_t *changed = &inputs[i].given[inputs[i].given_n * (size_t)i / INPUTS];

        *changed ^= 0x10;
        found += not_answering(row, i, rows[row].refusal);
        *changed ^= 0x10;
    }
    return found;
}

// The same for derivations: the key of the last area is of the other algorithm, then of another node; then two entries have one name.
static int accepting_lists(int row)
{
    const int is_des = row == ROW_DES_DERIVE;
    int found = 0;

    if (!is_des && row != ROW_AES_DERIVE)
        return 0;
    for (int i = 0; i < INPUTS; i++) {
        struct lists *lists = is_des ? &inputs[i].des_lists : &inputs[i].aes_lists;
        const struct lists kept = *lists;
        uint8_t *entry = lists->keys;
        const unsigned node = (NODES - 1) * 64;

        while (entry[0] + 256u * entry[1] != node)
            entry += ENTRY;
        entry[2] ^= DES_MARK ^ AES_MARK;
        found += not_answering(row, i, OTHER_KEY);
        entry[1] = 0xFE;
        found += not_answering(row, i, NO_KEY | (uint64_t)node << 32);
        *lists = kept;
        memcpy(lists->keys + (i + 1) * ENTRY, lists->keys, 3);
        found += not_answering(row, i, KEY_TWICE);
        *lists = kept;
    }
    return found;
}

// ---- time

// Runs an operation n times, over all inputs in turn.
static void run(operation *op, long n)
{
    static uint8_t out[LONG_TEXT];
    int i = 0;

    while (n-- > 0) {
        op(&inputs[i], out);
        i = i + 1 == INPUTS ? 0 : i + 1;
    }
}

// Nanoseconds that this process has spent on a processor.
static double spent(void)
{
    struct timespec t;

    clock_gettime(CLOCK_PROCESS_CPUTIME_ID, &t);
    return (double)t.tv_sec * 1e9 + (double)t.tv_nsec;
}

static double time_of(operation *op, long n)
{
    const double before = spent();

    run(op, n);
    return spent() - before;
}

// As many turns over the inputs as take BATCH_TIME.
static long batch_size(operation *op)
{
    long n = INPUTS;

    while (time_of(op, n) < BATCH_TIME)
        n *= 2;
    return n;
}

static int by_size(const void *a, const void *b)
{
    const double x = *(const double *)a;
    const double y = *(const double *)b;

    return (x > y) - (x < y);
}

static double median(double *times)
{
    qsort(times, ROUNDS, sizeof times[0], by_size);
    return times[ROUNDS / 2];
}

// Times a row: in each round every column has one batch, and each round starts with another one. Gives each column's median, in
// nanoseconds for an operation or a block; 0 where it has no such row.
static void time_row(int row, double *medians)
{
    static double times[CONTESTANTS][ROUNDS];
    const long n = batch_size(operation_of(OURS, row));

    for (int round = 0; round < ROUNDS; round++) {
        for (int turn = 0; turn < columns_n; turn++) {
            const int c = (round + turn) % columns_n;

            times[c][round] = operation_of(c, row) == NULL ? 0 : time_of(operation_of(c, row), n);
        }
    }
    for (int c = 0; c < columns_n; c++)
        medians[c] = median(times[c]) / (double)n / rows[row].blocks;
}

// Keeps the processor at work until it runs at the speed that it keeps.
static void warm_up(void)
{
    const double before = spent();

    while (spent() - before < WARM_UP_TIME)
        run(operation_of(OURS, 0), INPUTS);
}

// ---- the table

static int is_virtual(void)
{
    unsigned a, b, c, d;

    return __get_cpuid(1, &a, &b, &c, &d) && c >> 31;
}

static double load(void)
{
    double average = 0;

    getloadavg(&average, 1);
    return average;
}

// The machine in general terms, and what the libraries are. The columns with AES instructions have none of their own.
static void print_machine(void)
{
    printf("An x86-64 %s, %ld cores, %s AES instructions; gcc " __VERSION__, is_virtual() ? "server, a virtual machine" : "machine",
           sysconf(_SC_NPROCESSORS_ONLN), columns_n == CONTESTANTS ? "with" : "without");
    for (int c = OURS + 1; c < WITHOUT; c++)
        if (columns[c].contestant->version[0] != '\0')
            printf(", %s", columns[c].contestant->version);
    printf(".\n\n");
}

static void print_head(void)
{
    printf("| Nanoseconds (ratio) |");
    for (int c = 0; c < columns_n; c++)
        printf(" %s |", columns[c].title);
    printf("\n|---|");
    for (int c = 0; c < columns_n; c++)
        printf("---:|");
    printf("\n");
}

static void print_row(int row, const double *medians)
{
    printf("| %s | %.0f |", rows[row].title, medians[OURS]);
    for (int c = OURS + 1; c < columns_n; c++) {
        if (medians[c] == 0)
            printf(" |");
        else
            printf(" %.0f (%.2f) |", medians[c], medians[OURS] / medians[c]);
    }
    printf("\n");
    fflush(stdout);
}

// ---- the three calls

static int bench(void)
{
    double medians[CONTESTANTS];
    const double load_before = load();
    int found = 0;

    for (int row = 0; row < ROWS; row++) {
        if (!is_there(row))
            continue;
        prepare(row, columns[TOMCRYPT].contestant);
        found += differences(row) + accepting_changed(row) + accepting_lists(row);
    }
    if (found != 0)
        return 1;
    warm_up();
    print_machine();
    print_head();
    for (int row = 0; row < ROWS; row++) {
        if (!is_there(row))
            continue;
        prepare(row, columns[TOMCRYPT].contestant);
        time_row(row, medians);
        print_row(row, medians);
    }
    printf("\nMedians of %d rounds over %d inputs. In brackets our time divided by the peer's: below 1 ours is faster.\n", ROUNDS, INPUTS);
    printf("Load average %.2f at the start, %.2f at the end.\n", load_before, load());
    return 0;
}

static void list(void)
{
    for (int row = 0; row < ROWS; row++)
        for (int c = 0; c < columns_n; c++)
            if (operation_of(c, row) != NULL)
                printf("%s\t%s\t%d\n", rows[row].title, columns[c].title, rows[row].blocks);
}

// What is counted, and nothing else: the name is given to callgrind.
__attribute__((noinline)) static void counted(operation *op, long n)
{
    run(op, n);
}

// Each operation has run before it is counted, so that all its functions are found already.
static void count(long n)
{
    for (int row = 0; row < ROWS; row++) {
        prepare(row, columns[TOMCRYPT].contestant);
        for (int c = 0; c < columns_n; c++) {
            if (operation_of(c, row) != NULL) {
                run(operation_of(c, row), INPUTS);
                counted(operation_of(c, row), n);
            }
        }
    }
}

int main(int argc, char **argv)
{
    fill_inputs();
    if (start_contestants() != 0)
        return 2;
    if (argc == 1)
        return bench();
    if (argc == 2 && strcmp(argv[1], "--list") == 0)
        list();
    else if (argc == 3 && strcmp(argv[1], "--count") == 0)
        count(strtol(argv[2], NULL, 10));
    else {
        fprintf(stderr, "usage: bench [--list | --count N]\n");
        return 2;
    }
    return 0;
}
