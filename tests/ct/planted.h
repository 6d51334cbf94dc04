// Functions that tell of a secret or read what is closed, which the report has to show; and a comparison that does not tell.
#ifndef PLANTED_H
#define PLANTED_H

#include <stddef.h>
#include <stdint.h>

// Compares and stops at the first difference.
int planted_early_exit(const uint8_t *a, const uint8_t *b, size_t n);
// Compares all bytes; the one jump is the caller's, on the verdict.
int planted_all_bytes(const uint8_t *a, const uint8_t *b, size_t n);
// Reads a table by a secret byte.
unsigned planted_lookup(uint8_t index);
// Jumps on what a table has at a secret byte: seen only if tables count as secret.
int planted_jump_behind_lookup(uint8_t index);
// Reads the last byte of a key list, whose keys are closed.
unsigned planted_key_read(const volatile uint8_t *keys, size_t n);

#endif
