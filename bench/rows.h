// The rows of the table, and the inputs that all contestants get.
#ifndef HERNOTXAK_BENCH_ROWS_H
#define HERNOTXAK_BENCH_ROWS_H

#include "bench.h"

enum { INPUTS = 12 };

// A row's name, what it measures, the length of a result, and the blocks that its cost is divided by. For frames the payload's length.
// For what opens, reads or checks, the row that makes what it is given, once or from both random blocks; and the answer that it must
// give where a byte of that is changed, or 0.
struct row_facts {
    const char *name;
    const char *title;
    size_t result;
    int blocks;
    size_t payload;
    int givens;
    enum row given_by;
    unsigned refusal;
};

extern const struct row_facts rows[ROWS];
extern struct input inputs[INPUTS];

// Fills the inputs with a fixed sequence, so that every run has the same.
void fill_inputs(void);
// Sets the parts of the inputs that depend on the row. What is given to it is made by this contestant.
void prepare(int row, const struct contestant *maker);

#endif
