// The contestants by their columns. Ours is column 0.
#ifndef HERNOTXAK_BENCH_CONTESTANTS_H
#define HERNOTXAK_BENCH_CONTESTANTS_H

#include "bench.h"

enum {
    OURS,
    TOMCRYPT,
    OPENSSL,
    NETTLE,
    BEARSSL,
    BEARSSL_64,
    // What makes no use of the processor's AES instructions ends here.
    WITHOUT,
    EVP = WITHOUT,
    NETTLE_WITH,
    CONTESTANTS
};

struct column {
    const char *title;
    const struct contestant *contestant;
};

extern struct column columns[CONTESTANTS];
// How many columns there are: WITHOUT, on a processor that has no AES instructions.
extern int columns_n;

// Sets the columns. Answers 0, or 1 where a library cannot be loaded.
int start_contestants(void);
// NULL where a column has no such row: with AES instructions there are those of AES alone, and none that ours lacks.
operation *operation_of(int column, int row);

#endif
