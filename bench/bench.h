// What the contestants share: the rows of the table, the inputs, and the shape of an operation.
#ifndef HERNOTXAK_BENCH_H
#define HERNOTXAK_BENCH_H

#include <stddef.h>
#include <stdint.h>

// The rows, in the order of the table.
enum row {
    ROW_AES,
    ROW_AES_BACK,
    ROW_AES_CHAIN,
    ROW_AES_OFB,
    ROW_AES_CMAC,
    ROW_DES,
    ROW_DES_BACK,
    ROW_DES_CHAIN,
    ROW_CBC,
    ROW_CBC_BACK,
    ROW_FOLD,
    ROW_FOLD_BACK,
    ROW_TDES,
    ROW_AES_DERIVE,
    ROW_AES_MAKE_1A,
    ROW_AES_READ_1A,
    ROW_AES_MAKE_1B,
    ROW_AES_CHECK_1B,
    ROW_AES_KEYS,
    ROW_AES_READER,
    ROW_AES_CARD,
    ROW_DES_DERIVE,
    ROW_DES_MAKE_1A,
    ROW_DES_READ_1A,
    ROW_DES_MAKE_1B,
    ROW_DES_CHECK_1B,
    ROW_DES_READER,
    ROW_DES_CARD,
    ROW_AES_SEAL_0,
    ROW_AES_SEAL_16,
    ROW_AES_SEAL_64,
    ROW_AES_SEAL_243,
    ROW_AES_OPEN_0,
    ROW_AES_OPEN_16,
    ROW_AES_OPEN_64,
    ROW_AES_OPEN_243,
    ROW_DES_SEAL_0,
    ROW_DES_SEAL_16,
    ROW_DES_SEAL_64,
    ROW_DES_SEAL_232,
    ROW_DES_OPEN_0,
    ROW_DES_OPEN_16,
    ROW_DES_OPEN_64,
    ROW_DES_OPEN_232,
    ROW_AES_STEP,
    ROW_DES_STEP,
    ROWS
};

enum {
    AES_BLOCK = 16,
    DES_BLOCK = 8,
    // The text of the rows that measure a block alone, and its blocks.
    LONG_TEXT = 4096,
    AES_BLOCKS = LONG_TEXT / AES_BLOCK,
    DES_BLOCKS = LONG_TEXT / DES_BLOCK,
    // The longest texts that fit one frame: 31 DES blocks, and 243 bytes for AES.
    DES_TEXT = 248,
    AES_TEXT = 243,
    // What a sealed payload has beside it: number and MAC, for DES an ID too. And the longest of all.
    AES_ADDED = 10,
    DES_ADDED = 16,
    SEALED = 253,
    ID = 6,
    IDM = 8,
    // Cipher key, MAC key and Challenge 3C, and where that starts.
    CREDENTIALS = 36,
    THIRD = 32,
    // Derived keys, and AES session keys.
    DES_DERIVED = 16,
    AES_DERIVED = 32,
    SESSION_KEYS = 32,
    // What a derivation reads: key entries of node 2, algorithm 1, key 16; areas and services of 2 bytes.
    DES_MARK = 1,
    AES_MARK = 2,
    ENTRIES = 128,
    ENTRY = 19,
    NODES = 32,
    NODE = 2,
    SYSTEM = 0xFFFF,
    // In front of a result of a C function: a number of 64 bits, as they pack their answers.
    ANSWER = 8,
    // Some of the answers: a key twice, a key missing, one of the other algorithm only, a wrong MAC or block, a wrong ID, a number that
    // is not above the session's.
    KEY_TWICE = 2,
    NO_KEY = 4,
    OTHER_KEY = 5,
    WRONG_MAC = 13,
    WRONG_ID = 14,
    NOT_ABOVE = 15
};

// Lists of a derivation, as long as they may be.
struct lists {
    uint8_t keys[ENTRIES * ENTRY];
    uint8_t areas[NODES * NODE];
    uint8_t services[NODES * NODE];
};

// What an operation reads; each uses the parts that it needs. A DES key is the first 8 bytes.
struct input {
    uint8_t key[AES_BLOCK];
    uint8_t key2[AES_BLOCK];
    uint8_t iv[AES_BLOCK];
    uint8_t text[LONG_TEXT];
    uint8_t credentials[CREDENTIALS];
    uint8_t id[ID];
    uint8_t code;
    // A session's number is one less.
    uint16_t number;
    uint8_t derived[AES_DERIVED];
    uint8_t idm[IDM];
    // Random 1 and random 2, and which of them a challenge is made from.
    uint8_t randoms[2][AES_BLOCK];
    int which;
    struct lists des_lists;
    struct lists aes_lists;
    // Set for each row: how much of the text is the payload of a frame, and what another row has made for this one to open, read
    // or check.
    size_t payload;
    size_t given_n;
    uint8_t given[SEALED];
};

// An operation writes its result to out. How long that is, the row says.
typedef void operation(const struct input *in, uint8_t *out);

// A library: its name and version, or nothing where another column has said them; what it needs before the first operation; and its
// operation for each row, NULL where it has none.
struct contestant {
    const char *version;
    void (*start)(void);
    operation *operations[ROWS];
};

// The operations of a contestant, by the names that each file gives them.
#define AES_OPERATIONS                  \
    [ROW_AES] = aes_block,              \
    [ROW_AES_BACK] = aes_block_back,    \
    [ROW_AES_CHAIN] = aes_chain,        \
    [ROW_AES_OFB] = aes_ofb,            \
    [ROW_AES_CMAC] = aes_cmac,          \
    [ROW_AES_DERIVE] = aes_derive,      \
    [ROW_AES_MAKE_1A] = aes_make_1a,    \
    [ROW_AES_READ_1A] = aes_read_1a,    \
    [ROW_AES_MAKE_1B] = aes_make_1b,    \
    [ROW_AES_CHECK_1B] = aes_check_1b,  \
    [ROW_AES_KEYS] = aes_keys,          \
    [ROW_AES_READER] = aes_reader,      \
    [ROW_AES_CARD] = aes_card,          \
    [ROW_AES_SEAL_0] = aes_seal,        \
    [ROW_AES_SEAL_16] = aes_seal,       \
    [ROW_AES_SEAL_64] = aes_seal,       \
    [ROW_AES_SEAL_243] = aes_seal,      \
    [ROW_AES_OPEN_0] = aes_open,        \
    [ROW_AES_OPEN_16] = aes_open,       \
    [ROW_AES_OPEN_64] = aes_open,       \
    [ROW_AES_OPEN_243] = aes_open,      \
    [ROW_AES_STEP] = aes_step

#define DES_OPERATIONS                  \
    [ROW_DES] = des_block,              \
    [ROW_DES_BACK] = des_block_back,    \
    [ROW_DES_CHAIN] = des_chain,        \
    [ROW_CBC] = cbc,                    \
    [ROW_CBC_BACK] = cbc_back,          \
    [ROW_FOLD] = fold,                  \
    [ROW_FOLD_BACK] = fold_back,        \
    [ROW_TDES] = tdes_block,            \
    [ROW_DES_DERIVE] = des_derive,      \
    [ROW_DES_MAKE_1A] = des_make_1a,    \
    [ROW_DES_READ_1A] = des_read_1a,    \
    [ROW_DES_MAKE_1B] = des_make_1b,    \
    [ROW_DES_CHECK_1B] = des_check_1b,  \
    [ROW_DES_READER] = des_reader,      \
    [ROW_DES_CARD] = des_card,          \
    [ROW_DES_SEAL_0] = des_seal,        \
    [ROW_DES_SEAL_16] = des_seal,       \
    [ROW_DES_SEAL_64] = des_seal,       \
    [ROW_DES_SEAL_232] = des_seal,      \
    [ROW_DES_OPEN_0] = des_open,        \
    [ROW_DES_OPEN_16] = des_open,       \
    [ROW_DES_OPEN_64] = des_open,       \
    [ROW_DES_OPEN_232] = des_open,      \
    [ROW_DES_STEP] = des_step

extern const struct contestant ours;
extern const struct contestant tomcrypt;
extern const struct contestant openssl;
extern const struct contestant openssl_evp;
extern const struct contestant bearssl_ct;
extern const struct contestant bearssl_ct64;
// In a library of its own, which is loaded twice (contestants.c).
extern const struct contestant nettle;

#endif
