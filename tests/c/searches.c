#include "parts.h"

#include "call.h"
#include "check.h"
#include "model_derivation.h"

#include "../../include/felica_secure.h"

#include <string.h>

enum { DES = FELICA_ALGORITHM_DES, AES = FELICA_ALGORITHM_AES128 };

static struct lists lists;

static uint64_t found(unsigned algorithm, unsigned count)
{
    return (uint64_t)count << 16 | (uint64_t)algorithm << 8;
}

static void finds(unsigned node, unsigned algorithm, uint64_t answer)
{
    struct call c = search(&lists, node, algorithm);

    tells(&c, answer);
}

// ---- the document's examples, each with the answer written here

static void examples(void)
{
    unsigned i;

    clear(&lists);
    finds(0x0000, DES, found(0, 0));
    finds(0xFFFF, AES, found(0, 0));
    add_key(&lists, 0x0000, DES, 1);
    add_key(&lists, 0x1008, AES, 1);
    finds(0x0000, DES, found(DES, 1));
    finds(0x1008, AES, found(AES, 2));
    finds(0x0000, AES, found(0, 2));
    // the same node with the other algorithm behind it, and the node's bytes exchanged
    add_key(&lists, 0x0000, AES, 2);
    finds(0x0000, AES, found(AES, 3));
    finds(0x0810, AES, found(0, 3));
    // two entries of the same node and algorithm: the first is met
    clear(&lists);
    add_key(&lists, 0x1008, AES, 1);
    add_key(&lists, 0x0000, DES, 1);
    add_key(&lists, 0x1008, AES, 2);
    finds(0x1008, AES, found(AES, 1));
    // an unknown algorithm in front is another entry
    for (i = 0; i < 256; i++) {
        if (i != DES && i != AES) {
            clear(&lists);
            add_key(&lists, 0x1008, i, 1);
            add_key(&lists, 0x1008, AES, 1);
            finds(0x1008, AES, found(AES, 2));
            finds(0x1008, DES, found(0, 2));
        }
    }
}

// ---- each place and each node

// Entries of nodes that are 0x0101 apart, DES and AES in turn.
static unsigned node_of(unsigned place)
{
    return place * 0x0101u + 7;
}

static unsigned algorithm_of(unsigned place)
{
    return 1 + place % 2;
}

static void fill(unsigned n)
{
    unsigned place;

    clear(&lists);
    for (place = 0; place < n; place++) {
        add_key(&lists, node_of(place), algorithm_of(place), 3);
    }
}

static void places(unsigned n)
{
    unsigned place;

    fill(n);
    for (place = 0; place < n; place++) {
        unsigned node = node_of(place), algorithm = algorithm_of(place);

        finds(node, algorithm, found(algorithm, place + 1));
        finds(node, 3 - algorithm, found(0, n));
        finds(node + 1, algorithm, found(0, n));
        finds(node ^ 0x8000, algorithm, found(0, n));
    }
}

// One call for each of the 65,536 nodes and each algorithm, listed or not.
static void every_node(unsigned n)
{
    unsigned node, algorithm;

    fill(n);
    for (algorithm = DES; algorithm <= AES; algorithm++) {
        for (node = 0; node <= 0xFFFF; node++) {
            struct call c = search(&lists, node, algorithm);
            unsigned place = (node - 7) / 0x0101u;
            int listed = node >= 7 && place < n && node == node_of(place) && algorithm == algorithm_of(place);

            answers(&c, 0, node, listed ? found(algorithm, place + 1) : found(0, n), NULL);
        }
    }
}

// ---- what plays no part: the keys, and every entry behind the one that is met

static void others(void)
{
    unsigned place, at;

    for (place = 0; place < 128; place++) {
        size_t behind = (place + 1) * 19;

        fill(128);
        // they may be of any nodes and algorithms
        memcpy(lists.keys + behind, sample(place + 1, 128 * 19 - behind).at, 128 * 19 - behind);
        finds(node_of(place), algorithm_of(place), found(algorithm_of(place), place + 1));
        // or all of the one that is sought
        for (at = place + 1; at < 128; at++) {
            memcpy(lists.keys + at * 19, lists.keys + place * 19, 3);
        }
        finds(node_of(place), algorithm_of(place), found(algorithm_of(place), place + 1));
        // or not be there
        lists.keys_n = behind;
        finds(node_of(place), algorithm_of(place), found(algorithm_of(place), place + 1));
        // and the keys may be any
        for (at = 0; at <= place; at++) {
            memset(lists.keys + at * 19 + 3, (int)at, 16);
        }
        finds(node_of(place), algorithm_of(place), found(algorithm_of(place), place + 1));
    }
}

// The count leads to the key: a derivation from the whole list, and one from the entry alone, give the same bytes.
static void keys_found(void)
{
    static struct lists alone;
    struct call c;
    unsigned place, count;
    uint8_t got[32];

    fill(128);
    for (place = 1; place < 128; place += 2) {
        count = felica_answer_count(felica_search_key(lists.keys, lists.keys_n, (uint16_t)node_of(place), AES));
        clear(&alone);
        memcpy(alone.keys, lists.keys + (count - 1) * FELICA_KEY_ENTRY_SIZE, FELICA_KEY_ENTRY_SIZE);
        alone.keys_n = FELICA_KEY_ENTRY_SIZE;
        add_area(&alone, node_of(place));
        c = derivation(&alone, AES);
        derives(&c, AES, 32, NULL, got);
        c.credentials = text_of(lists.keys, lists.keys_n);
        derives(&c, AES, 32, got, NULL);
    }
}

// ---- refusals: 17, 1

static void refusals(void)
{
    static uint8_t many[70000];
    // from 256 on they are at most 128 once they are cut to 8 bits
    static const size_t counts[] = {129, 130, 255, 256, 257, 384, 3449, 3450};
    struct call c;
    unsigned mark;
    size_t i;

    for (mark = 0; mark < 256; mark++) {
        if (mark != DES && mark != AES) {
            fill(2);
            finds(node_of(0), mark, FELICA_BAD_MARK_OR_LENGTH);
            // before 1, and where the list has such a mark
            add_key(&lists, 0x1008, mark, 1);
            finds(0x1008, mark, FELICA_BAD_MARK_OR_LENGTH);
            fill(129);
            finds(node_of(0), mark, FELICA_BAD_MARK_OR_LENGTH);
        }
    }
    fill(4);
    for (i = 0; i < 80; i++) {
        if (i % 19 != 0) {
            c = search(&lists, node_of(0), algorithm_of(0));
            c.credentials.n = i;
            tells(&c, FELICA_BAD_MARK_OR_LENGTH);
        }
    }
    for (i = 0; i < sizeof counts / sizeof counts[0]; i++) {
        fill(128);
        memcpy(many, lists.keys, 128 * 19);
        // the first entry would be met
        c = search(&lists, node_of(0), algorithm_of(0));
        c.credentials = text_of(many, counts[i] * 19);
        tells(&c, FELICA_TOO_MANY_ENTRIES);
        c.credentials.n++;
        tells(&c, FELICA_BAD_MARK_OR_LENGTH);
    }
    // a list that would be whole if its length were cut, and is not
    c.credentials = text_of(many, 65536 + 2 * 19);
    tells(&c, FELICA_BAD_MARK_OR_LENGTH);
}

void searches(void)
{
    static const unsigned sizes[] = {0, 1, 2, 127, 128};
    size_t i;

    part("searches");
    examples();
    for (i = 0; i < sizeof sizes / sizeof sizes[0]; i++) {
        places(sizes[i]);
        every_node(sizes[i]);
    }
    others();
    keys_found();
    refusals();
}
