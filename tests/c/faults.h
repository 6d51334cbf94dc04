// The faults that are planted in the library, by family.
#ifndef FAULTS_H
#define FAULTS_H

#include "parts.h"
#include "wraps.h"

// The faults of a family, from 1 on; 0 is none.
struct faults {
    // what each of them is
    const char *const *what;
    int count;
    // where the one stands that is planted now
    int *planted;
    // the part of the test that notices them soonest, or NULL
    void (*first)(void);
};

#define FAULTS_OF_FAMILY(family) extern const struct faults faults_##family;
FAMILIES(FAULTS_OF_FAMILY)
#undef FAULTS_OF_FAMILY

// Stands once in each file faults_FAMILY.c, behind its list FAULTS: the names, the one that is planted now, and what the program needs.
#define FAULT_NAME(name, what) name,
#define FAULT_WHAT(name, what) what,
#define PLANTED(family, first) \
    enum { NONE, FAULTS(FAULT_NAME) COUNT }; \
    static int fault; \
    static const char *const what_faults[] = {"none", FAULTS(FAULT_WHAT)}; \
    const struct faults faults_##family = {what_faults, COUNT - 1, &fault, first};

#endif
