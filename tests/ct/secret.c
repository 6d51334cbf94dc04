#include "secret.h"

#include <valgrind/memcheck.h>

// The linker's names for the ends of the section that the archive's tables are moved to (tests/ct/run).
extern const uint8_t __start_felica_tables[], __stop_felica_tables[];

void secret(void *at, size_t n)
{
    (void)VALGRIND_MAKE_MEM_UNDEFINED(at, n);
}

void known(void *at, size_t n)
{
    (void)VALGRIND_MAKE_MEM_DEFINED(at, n);
}

void closed(void *at, size_t n)
{
    (void)VALGRIND_MAKE_MEM_NOACCESS(at, n);
}

void tables_secret(void)
{
    (void)VALGRIND_MAKE_MEM_UNDEFINED(__start_felica_tables, __stop_felica_tables - __start_felica_tables);
}

void tables_known(void)
{
    (void)VALGRIND_MAKE_MEM_DEFINED(__start_felica_tables, __stop_felica_tables - __start_felica_tables);
}

size_t secret_bytes(const void *at, size_t n)
{
    const uint8_t *byte = at;
    size_t count = 0, i;

    for (i = 0; i < n; i++) {
        uint8_t bits = 0;

        (void)VALGRIND_GET_VBITS(byte + i, &bits, 1);
        count += bits != 0;
    }
    return count;
}

int watched(void)
{
    return RUNNING_ON_VALGRIND;
}
