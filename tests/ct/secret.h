// Secrets, as memcheck sees them: bytes marked as not initialised. It reports each jump and each address that is made from such bytes, and
// follows them through copies and arithmetic, bit by bit.
#ifndef SECRET_H
#define SECRET_H

#include <stddef.h>
#include <stdint.h>

void secret(void *at, size_t n);
void known(void *at, size_t n);
// It reports each read of these.
void closed(void *at, size_t n);

// The tables of the archive. A value that is read from a table counts as initialised, whatever the index was made of; so while a call
// is measured the tables count as secret, and what is read from them does too.
void tables_secret(void);
void tables_known(void);

// How many of n bytes have a bit that depends on a secret.
size_t secret_bytes(const void *at, size_t n);

// Whether memcheck runs this program.
int watched(void);

#endif
