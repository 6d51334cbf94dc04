#define _POSIX_C_SOURCE 200809L
#include "contestants.h"

#include <dlfcn.h>
#include <stdio.h>
#include <stdlib.h>

struct column columns[CONTESTANTS] = {
    [OURS] = {"ours", &ours},
    [TOMCRYPT] = {"libtomcrypt", &tomcrypt},
    [OPENSSL] = {"OpenSSL", &openssl},
    [NETTLE] = {"nettle", NULL},
    [BEARSSL] = {"BearSSL, constant time", &bearssl_ct},
    [BEARSSL_64] = {"BearSSL, constant time, 64 bits", &bearssl_ct64},
    [EVP] = {"OpenSSL EVP, AES instructions", &openssl_evp},
    [NETTLE_WITH] = {"nettle, AES instructions", NULL},
};

int columns_n;

// nettle reads once, when it is loaded, what it may use of the processor. So it is built into two libraries, each with its own copy.
static const struct contestant *load(const char *file, const char *features)
{
    void *library;

    setenv("NETTLE_FAT_OVERRIDE", features, 1);
    library = dlopen(file, RTLD_NOW | RTLD_LOCAL);
    if (library == NULL) {
        fprintf(stderr, "bench: %s\n", dlerror());
        return NULL;
    }
    return dlsym(library, "nettle");
}

int start_contestants(void)
{
    columns_n = __builtin_cpu_supports("aes") ? CONTESTANTS : WITHOUT;
    columns[NETTLE].contestant = load("nettle.so", "vendor:intel");
    if (columns_n == CONTESTANTS)
        columns[NETTLE_WITH].contestant = load("nettle-with.so", "vendor:intel,aesni");
    for (int c = 0; c < columns_n; c++) {
        if (columns[c].contestant == NULL)
            return 1;
        columns[c].contestant->start();
    }
    return 0;
}

operation *operation_of(int column, int row)
{
    if (ours.operations[row] == NULL || (column >= WITHOUT && openssl_evp.operations[row] == NULL))
        return NULL;
    return columns[column].contestant->operations[row];
}
