// What the document says of sizes, of refusals by length and of searches, written out here once more and not taken from the library.
#ifndef LAYOUT_H
#define LAYOUT_H

#include "sample.h"

// n bytes in whole blocks of 8.
size_t padded(size_t n);

// The sizes of a block, of the derived keys, of the credentials, and of the longest payload.
size_t block_size(unsigned scheme);
size_t derived_size(unsigned scheme);
size_t credentials_size(unsigned scheme);
size_t payload_max(unsigned scheme);

// What sealing and opening add and take: sizes of sealed data for a payload of n bytes, of an opened payload for sealed data of n bytes.
size_t sealed_size(unsigned scheme, size_t n);
size_t opened_size(unsigned scheme, size_t n);

// How many bytes of padding sealing adds to a payload of n bytes. What stands before it is a whole block, or nothing.
unsigned padding_of(unsigned scheme, size_t n);

// The number that data of n bytes which has no valid MAC is turned down with; the same for DES Authentication 2.
unsigned opening_number(unsigned scheme, size_t n);
unsigned authentication2_number(size_t n);

// A payload as an opening gives it back, at `to`: padded with DES. Answers how long it is.
size_t as_opened(unsigned scheme, struct text payload, uint8_t *to);

// What a search of a key list answers: one entry after another, up to the first that is sought.
uint64_t search_answer(struct text keys, unsigned node, unsigned algorithm);

// How many bytes of an opened DES payload the trimmed opening gives: all but its last v, if these all equal v and v is 1 to 7.
size_t trimmed_size(struct text payload);

#endif
