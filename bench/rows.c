#include "rows.h"

#include <string.h>

const struct row_facts rows[ROWS] = {
    [ROW_AES] = {"aes", "AES-128, key schedule and a block", AES_BLOCK, .blocks = 1},
    [ROW_AES_BACK] = {"aes-back", "AES-128, key schedule and a block back", AES_BLOCK, .blocks = 1},
    [ROW_AES_CHAIN] = {"aes-chain", "AES-128, a block alone (1)", AES_BLOCK, .blocks = AES_BLOCKS},
    [ROW_AES_OFB] = {"aes-ofb", "AES-128, OFB of 243 bytes (2)", AES_TEXT, .blocks = 1},
    [ROW_AES_CMAC] = {"aes-cmac", "AES-128, CMAC of 243 bytes (2)", AES_BLOCK, .blocks = 1},
    [ROW_DES] = {"des", "DES, key schedule and a block", DES_BLOCK, .blocks = 1},
    [ROW_DES_BACK] = {"des-back", "DES, key schedule and a block back", DES_BLOCK, .blocks = 1},
    [ROW_DES_CHAIN] = {"des-chain", "DES, a block alone (1)", LONG_TEXT, .blocks = DES_BLOCKS},
    [ROW_CBC] = {"des-cbc", "DES, CBC of 248 bytes", DES_TEXT, .blocks = 1},
    [ROW_CBC_BACK] = {"des-cbc-back", "DES, CBC of 248 bytes back", DES_TEXT, .blocks = 1},
    [ROW_FOLD] = {"des-fold", "DES, fold over 31 keys", DES_BLOCK, .blocks = 1},
    [ROW_FOLD_BACK] = {"des-fold-back", "DES, fold over 31 keys back", DES_BLOCK, .blocks = 1},
    [ROW_TDES] = {"tdes", "Triple DES, two key schedules and a block", DES_BLOCK, .blocks = 1},
    [ROW_AES_DERIVE] = {"aes-derive", "AES derivation, 32 areas, 32 services, 128 keys (3)", ANSWER + AES_DERIVED, .blocks = 1},
    [ROW_AES_MAKE_1A] = {"aes-make-1a", "AES challenge, make 1A (4)", ANSWER + AES_BLOCK, .blocks = 1},
    [ROW_AES_READ_1A] = {"aes-read-1a", "AES challenge, read 1A (4)", ANSWER + AES_BLOCK, .blocks = 1, .givens = 1,
                         .given_by = ROW_AES_MAKE_1A},
    [ROW_AES_MAKE_1B] = {"aes-make-1b", "AES challenge, make 1B (4)", ANSWER + AES_BLOCK, .blocks = 1},
    [ROW_AES_CHECK_1B] = {"aes-check-1b", "AES challenge, check 1B (4)", ANSWER, .blocks = 1, .givens = 1,
                          .given_by = ROW_AES_MAKE_1B, .refusal = WRONG_MAC},
    [ROW_AES_KEYS] = {"aes-keys", "AES session keys", ANSWER + SESSION_KEYS, .blocks = 1},
    [ROW_AES_READER] = {"aes-reader", "AES authentication, the reader's part (5)", ANSWER + 3 * AES_BLOCK + SESSION_KEYS, .blocks = 1,
                        .givens = 2, .given_by = ROW_AES_MAKE_1B},
    [ROW_AES_CARD] = {"aes-card", "AES authentication, the card's part (5)", ANSWER + 3 * AES_BLOCK + SESSION_KEYS, .blocks = 1,
                      .givens = 2, .given_by = ROW_AES_MAKE_1A},
    [ROW_DES_DERIVE] = {"des-derive", "DES derivation, 32 areas, 32 services, 128 keys (3)", ANSWER + DES_DERIVED, .blocks = 1},
    [ROW_DES_MAKE_1A] = {"des-make-1a", "DES challenge, make 1A (4)", ANSWER + DES_BLOCK, .blocks = 1},
    [ROW_DES_READ_1A] = {"des-read-1a", "DES challenge, read 1A (4)", ANSWER + DES_BLOCK, .blocks = 1, .givens = 1,
                         .given_by = ROW_DES_MAKE_1A},
    [ROW_DES_MAKE_1B] = {"des-make-1b", "DES challenge, make 1B (4)", ANSWER + DES_BLOCK, .blocks = 1},
    [ROW_DES_CHECK_1B] = {"des-check-1b", "DES challenge, check 1B (4)", ANSWER, .blocks = 1, .givens = 1,
                          .given_by = ROW_DES_MAKE_1B, .refusal = WRONG_MAC},
    [ROW_DES_READER] = {"des-reader", "DES authentication, the reader's part (5)", ANSWER + 3 * DES_BLOCK, .blocks = 1,
                        .givens = 2, .given_by = ROW_DES_MAKE_1B},
    [ROW_DES_CARD] = {"des-card", "DES authentication, the card's part (5)", ANSWER + 3 * DES_BLOCK, .blocks = 1,
                      .givens = 2, .given_by = ROW_DES_MAKE_1A},
    [ROW_AES_SEAL_0] = {"aes-seal-0", "AES frame, seal 0 bytes", ANSWER + AES_ADDED, .blocks = 1},
    [ROW_AES_SEAL_16] = {"aes-seal-16", "AES frame, seal 16 bytes", ANSWER + 16 + AES_ADDED, .blocks = 1, .payload = 16},
    [ROW_AES_SEAL_64] = {"aes-seal-64", "AES frame, seal 64 bytes", ANSWER + 64 + AES_ADDED, .blocks = 1, .payload = 64},
    [ROW_AES_SEAL_243] = {"aes-seal-243", "AES frame, seal 243 bytes", ANSWER + 243 + AES_ADDED, .blocks = 1, .payload = 243},
    [ROW_AES_OPEN_0] = {"aes-open-0", "AES frame, open 0 bytes", ANSWER, .blocks = 1, .payload = 0, .givens = 1,
                        .given_by = ROW_AES_SEAL_0, .refusal = WRONG_MAC},
    [ROW_AES_OPEN_16] = {"aes-open-16", "AES frame, open 16 bytes", ANSWER + 16, .blocks = 1, .payload = 16, .givens = 1,
                         .given_by = ROW_AES_SEAL_16, .refusal = WRONG_MAC},
    [ROW_AES_OPEN_64] = {"aes-open-64", "AES frame, open 64 bytes", ANSWER + 64, .blocks = 1, .payload = 64, .givens = 1,
                         .given_by = ROW_AES_SEAL_64, .refusal = WRONG_MAC},
    [ROW_AES_OPEN_243] = {"aes-open-243", "AES frame, open 243 bytes", ANSWER + 243, .blocks = 1, .payload = 243, .givens = 1,
                          .given_by = ROW_AES_SEAL_243, .refusal = WRONG_MAC},
    [ROW_DES_SEAL_0] = {"des-seal-0", "DES frame, seal 0 bytes", ANSWER + DES_ADDED, .blocks = 1},
    [ROW_DES_SEAL_16] = {"des-seal-16", "DES frame, seal 16 bytes", ANSWER + 16 + DES_ADDED, .blocks = 1, .payload = 16},
    [ROW_DES_SEAL_64] = {"des-seal-64", "DES frame, seal 64 bytes", ANSWER + 64 + DES_ADDED, .blocks = 1, .payload = 64},
    [ROW_DES_SEAL_232] = {"des-seal-232", "DES frame, seal 232 bytes", ANSWER + 232 + DES_ADDED, .blocks = 1, .payload = 232},
    [ROW_DES_OPEN_0] = {"des-open-0", "DES frame, open 0 bytes", ANSWER, .blocks = 1, .payload = 0, .givens = 1,
                        .given_by = ROW_DES_SEAL_0, .refusal = WRONG_MAC},
    [ROW_DES_OPEN_16] = {"des-open-16", "DES frame, open 16 bytes", ANSWER + 16, .blocks = 1, .payload = 16, .givens = 1,
                         .given_by = ROW_DES_SEAL_16, .refusal = WRONG_MAC},
    [ROW_DES_OPEN_64] = {"des-open-64", "DES frame, open 64 bytes", ANSWER + 64, .blocks = 1, .payload = 64, .givens = 1,
                         .given_by = ROW_DES_SEAL_64, .refusal = WRONG_MAC},
    [ROW_DES_OPEN_232] = {"des-open-232", "DES frame, open 232 bytes", ANSWER + 232, .blocks = 1, .payload = 232, .givens = 1,
                          .given_by = ROW_DES_SEAL_232, .refusal = WRONG_MAC},
    [ROW_AES_STEP] = {"aes-step", "AES session, take a response of 243 bytes", ANSWER + 243, .blocks = 1, .payload = 243, .givens = 1,
                      .given_by = ROW_AES_SEAL_243, .refusal = WRONG_MAC},
    [ROW_DES_STEP] = {"des-step", "DES session, take a response of 232 bytes", ANSWER + 232, .blocks = 1, .payload = 232, .givens = 1,
                      .given_by = ROW_DES_SEAL_232, .refusal = WRONG_MAC},
};

struct input inputs[INPUTS];

// The next number of a fixed sequence (xorshift).
static uint64_t next_number(void)
{
    static uint64_t x = 88172645463325252;

    x ^= x << 13;
    x ^= x >> 7;
    x ^= x << 17;
    return x;
}

static void put_node(uint8_t *to, unsigned node)
{
    to[0] = (uint8_t)node;
    to[1] = (uint8_t)(node >> 8);
}

static void swap_entries(uint8_t *a, uint8_t *b)
{
    uint8_t kept[ENTRY];

    memcpy(kept, a, ENTRY);
    memcpy(a, b, ENTRY);
    memcpy(b, kept, ENTRY);
}

// Gives nodes to lists that have keys. No service is key-free. Beside the keys of areas and services there are those of the system
// and of nodes that nobody needs; all stand in any order.
static void name_nodes(struct lists *lists, uint8_t algorithm)
{
    for (unsigned i = 0; i < NODES; i++) {
        put_node(lists->areas + i * NODE, i * 64);
        put_node(lists->services + i * NODE, i * 64 + 8);
        put_node(lists->keys + i * ENTRY, i * 64);
        put_node(lists->keys + (NODES + i) * ENTRY, i * 64 + 8);
    }
    for (unsigned i = 2 * NODES; i < ENTRIES; i++)
        put_node(lists->keys + i * ENTRY, i == 2 * NODES ? SYSTEM : i * 64 + 8);
    for (unsigned i = 0; i < ENTRIES; i++) {
        lists->keys[i * ENTRY + 2] = algorithm;
        swap_entries(lists->keys + i * ENTRY, lists->keys + next_number() % (i + 1) * ENTRY);
    }
}

void fill_inputs(void)
{
    uint8_t *bytes = (uint8_t *)inputs;

    for (size_t i = 0; i < sizeof inputs; i++)
        bytes[i] = (uint8_t)(next_number() >> 32);
    for (int i = 0; i < INPUTS; i++) {
        inputs[i].number |= 1;
        name_nodes(&inputs[i].des_lists, DES_MARK);
        name_nodes(&inputs[i].aes_lists, AES_MARK);
    }
}

void prepare(int row, const struct contestant *maker)
{
    static uint8_t result[LONG_TEXT];
    const enum row by = rows[row].given_by;
    const size_t n = rows[by].result - ANSWER;

    for (int i = 0; i < INPUTS; i++) {
        struct input *in = &inputs[i];

        in->payload = rows[row].payload;
        in->given_n = n;
        for (in->which = 0; in->which < rows[row].givens; in->which++) {
            maker->operations[by](in, result);
            memcpy(in->given + (size_t)in->which * n, result + ANSWER, n);
        }
        in->which = 0;
    }
}
