#include "parts.h"

#include "call.h"
#include "check.h"
#include "layout.h"
#include "model_derivation.h"

#include "../../include/felica_secure.h"

#include <string.h>

enum { BY_KEYS = FELICA_SCHEME_BY_KEYS, DES = FELICA_SCHEME_DES, AES = FELICA_SCHEME_AES128, SYSTEM = FELICA_NODE_SYSTEM };

static const uint8_t zeros[16];

// Turned down in any room, or accepted with the bytes of the document's layout.
static void as_document(const struct call *c)
{
    struct modelled d = derivation_of(c);

    if (d.answer % 256 != 0) {
        refuses(c, d.answer);
    } else {
        derives(c, felica_answer_scheme(d.answer), felica_answer_length(d.answer), d.bytes, NULL);
    }
}

// ---- the document's examples and what follows from its words, each with the number written here

static struct lists lists;

static void keys(unsigned node, unsigned algorithm)
{
    add_key(&lists, node, algorithm, 1);
}

// The lists are cleared for the next.
static void turned_down(unsigned mark, struct text individual, uint64_t refusal)
{
    struct call c = derivation(&lists, mark);

    c.individual = individual;
    check(derivation_of(&c).answer == refusal, "the test's own answer is another");
    refuses(&c, refusal);
    clear(&lists);
}

static void accepted(unsigned mark, struct text individual, unsigned scheme)
{
    struct call c = derivation(&lists, mark);

    c.individual = individual;
    check(felica_answer_scheme(derivation_of(&c).answer) == scheme, "the test's own answer is another");
    as_document(&c);
    clear(&lists);
}

// 1, 2 and 17 are the same under each mark.
static void examples_of_keys(unsigned mark)
{
    const struct text none = text_of(NULL, 0), short_one = text_of(zeros, 8);
    unsigned i;

    clear(&lists);
    // 1: 33 services
    for (i = 0; i < 33; i++) {
        add_service(&lists, 0x1008);
    }
    turned_down(mark, none, 1);
    // 2: node 0x1008 AES twice; the other halves of DES keys make no other keys of them
    add_key(&lists, 0x1008, AES, 1);
    add_key(&lists, 0x1008, AES, 2);
    turned_down(mark, none, 2);
    add_key(&lists, 0x1008, DES, 1);
    add_key(&lists, 0x1000, DES, 1);
    add_key(&lists, 0x1008, DES, 2);
    memcpy(lists.keys + 2 * 19 + 3, lists.keys + 3, 8);
    turned_down(mark, none, 2);
    // 17: before 1, and for every entry
    for (i = 0; i < 129; i++) {
        add_key(&lists, i, i == 128 ? 3 : DES, 1);
    }
    turned_down(mark, none, 17);
    for (i = 0; i < 129; i++) {
        add_key(&lists, 0x1008, DES, 1);
    }
    turned_down(mark, none, 1);
    turned_down(mark, short_one, 17);
}

static void examples(void)
{
    const struct text none = text_of(NULL, 0), given = text_of(zeros, 16);

    clear(&lists);
    // 3: both lists empty. With DES that is 7, or 6
    turned_down(BY_KEYS, none, 3);
    turned_down(BY_KEYS, given, 3);
    turned_down(AES, none, 3);
    turned_down(AES, given, 3);
    turned_down(DES, none, 7);
    turned_down(DES, given, 6);
    // 4: chosen by keys, area 0x0000, no keys
    add_area(&lists, 0x0000);
    turned_down(BY_KEYS, none, missing(0x0000));
    // 5: an AES chain, an area with DES only
    add_area(&lists, 0x0000);
    keys(0x0000, DES);
    turned_down(AES, none, 5);
    // 6: sixteen zeros are an individual key
    add_area(&lists, 0x0000);
    add_service(&lists, 0x1008);
    keys(SYSTEM, DES);
    keys(0x0000, DES);
    keys(0x1008, DES);
    turned_down(DES, given, 6);
    // 7: services 0x1008
    add_service(&lists, 0x1008);
    turned_down(DES, none, 7);
    // 8: area 0x0000, service 0x1009
    add_area(&lists, 0x0000);
    add_service(&lists, 0x1009);
    turned_down(DES, none, 8);
}

// A row at a time is put right, and the next one shows.
static void rows_des(void)
{
    const struct text none = text_of(NULL, 0), given = sample(6, 16);
    int step, set;

    clear(&lists);
    for (step = 0; step <= 7; step++) {
        if (step >= 2) {
            add_area(&lists, 0x0040);
            add_area(&lists, 0x0000);
        }
        add_service(&lists, 0x1009);
        if (step >= 3) {
            add_service(&lists, 0x1048);
            add_service(&lists, 0x1008);
        }
        for (set = 4; set <= step; set++) {
            static const unsigned nodes[] = {SYSTEM, 0x0040, 0x0000, 0x1048};

            keys(nodes[set - 4], DES);
        }
        if (step == 0) {
            turned_down(DES, given, 6);
        } else if (step <= 2) {
            turned_down(DES, none, step == 1 ? 7 : 8);
        } else {
            static const unsigned nodes[] = {SYSTEM, 0x0040, 0x0000, 0x1048, 0x1008};

            turned_down(DES, none, missing(nodes[step - 3]));
        }
    }
}

// 4 and 5 are one row: the first node that lacks its key decides which.
static void rows_of_nodes(void)
{
    const struct text none = text_of(NULL, 0);
    unsigned scheme, first;

    clear(&lists);
    for (scheme = DES; scheme <= AES; scheme++) {
        for (first = 0; first < 2; first++) {
            // two areas, one with the other algorithm and one with no key
            add_area(&lists, first ? 0x0040 : 0x0080);
            add_area(&lists, first ? 0x0080 : 0x0040);
            add_service(&lists, 0x1008);
            keys(SYSTEM, scheme);
            keys(0x0040, 3 - scheme);
            turned_down(scheme, none, first ? 5 : missing(0x0080));
            // two services likewise; the areas come first
            add_area(&lists, 0x0000);
            add_service(&lists, first ? 0x1048 : 0x1008);
            add_service(&lists, first ? 0x1008 : 0x1048);
            keys(SYSTEM, scheme);
            keys(0x1048, 3 - scheme);
            turned_down(scheme, none, missing(0x0000));
            add_area(&lists, 0x0000);
            add_service(&lists, first ? 0x1048 : 0x1008);
            add_service(&lists, first ? 0x1008 : 0x1048);
            keys(SYSTEM, scheme);
            keys(0x0000, scheme);
            keys(0x1048, 3 - scheme);
            turned_down(scheme, none, first ? 5 : missing(0x1008));
        }
    }
}

static void targets(void)
{
    const struct text none = text_of(NULL, 0), given = sample(5, 16);

    clear(&lists);
    // the target's 4 comes before 6, 7 and 8
    add_service(&lists, 0x1008);
    turned_down(BY_KEYS, given, missing(0x1008));
    add_service(&lists, 0x1009);
    turned_down(BY_KEYS, given, missing(0x1009));
    // before the areas
    add_area(&lists, 0x0000);
    add_service(&lists, 0x1008);
    keys(0x0000, AES);
    turned_down(BY_KEYS, none, missing(0x1008));
    // the last service that is not key-free, before a key-free one behind it
    add_service(&lists, 0x1048);
    add_service(&lists, 0x1008);
    add_service(&lists, 0x1009);
    keys(0x1048, AES);
    keys(0x1009, AES);
    turned_down(BY_KEYS, none, missing(0x1008));
}

static void targets_of_both(void)
{
    const struct text none = text_of(NULL, 0);
    unsigned mark, algorithm;

    clear(&lists);
    // a target with both algorithms makes an AES chain; DES can be forced
    for (mark = BY_KEYS; mark <= AES; mark++) {
        keys(SYSTEM, DES);
        for (algorithm = DES; algorithm <= AES; algorithm++) {
            keys(0x0000, algorithm);
            keys(0x1008, algorithm);
        }
        add_area(&lists, 0x0000);
        add_service(&lists, 0x1008);
        accepted(mark, none, mark == DES ? DES : AES);
    }
    // also where that then lacks a key
    add_area(&lists, 0x0000);
    add_service(&lists, 0x1008);
    keys(SYSTEM, DES);
    keys(0x0000, DES);
    keys(0x1008, DES);
    keys(0x1008, AES);
    turned_down(BY_KEYS, none, 5);
}

static void targets_without_keyed_service(void)
{
    const struct text none = text_of(NULL, 0), given = sample(5, 16);

    clear(&lists);
    // key-free services only: the last is the target
    add_area(&lists, 0x0000);
    add_service(&lists, 0x1009);
    keys(0x0000, DES);
    keys(0x1009, DES);
    turned_down(BY_KEYS, none, 8);
    add_area(&lists, 0x0000);
    add_service(&lists, 0x100B);
    add_service(&lists, 0x1009);
    keys(0x0000, AES);
    keys(0x100B, AES);
    turned_down(BY_KEYS, none, missing(0x1009));
    add_area(&lists, 0x0000);
    add_service(&lists, 0x1009);
    keys(0x1009, AES);
    keys(0x0000, AES);
    accepted(BY_KEYS, none, AES);
    // no service: the last area
    add_area(&lists, 0x0000);
    add_area(&lists, 0x0040);
    keys(0x0000, AES);
    keys(0x0040, AES);
    accepted(BY_KEYS, given, AES);
    add_area(&lists, 0x0000);
    add_area(&lists, 0x0040);
    keys(0x0000, AES);
    keys(0x0040, DES);
    turned_down(BY_KEYS, none, 8);
}

static void chains(void)
{
    const struct text none = text_of(NULL, 0);

    clear(&lists);
    // an area is never key-free, and nodes may stand twice
    add_area(&lists, 0x1009);
    add_area(&lists, 0x1009);
    add_service(&lists, 0x1008);
    add_service(&lists, 0x1008);
    keys(SYSTEM, DES);
    keys(0x1009, DES);
    keys(0x1008, DES);
    accepted(DES, none, DES);
    add_area(&lists, 0x1009);
    add_service(&lists, 0x1008);
    keys(SYSTEM, DES);
    keys(0x1008, DES);
    turned_down(DES, none, missing(0x1009));
    // the system node as an area and as a service is a key there too
    add_area(&lists, SYSTEM);
    add_service(&lists, SYSTEM);
    keys(SYSTEM, DES);
    accepted(DES, none, DES);
    // with AES it is a node like others
    add_area(&lists, SYSTEM);
    keys(SYSTEM, AES);
    accepted(AES, none, AES);
    // a system key of AES only
    add_area(&lists, 0x0000);
    add_service(&lists, 0x1008);
    keys(SYSTEM, AES);
    turned_down(DES, none, 5);
}

static void chains_with_key_free_service(void)
{
    const struct text none = text_of(NULL, 0);

    clear(&lists);
    // DES skips a key-free service, AES does not
    add_area(&lists, 0x0000);
    add_service(&lists, 0x1009);
    add_service(&lists, 0x1008);
    keys(SYSTEM, DES);
    keys(0x0000, DES);
    keys(0x1008, DES);
    accepted(BY_KEYS, none, DES);
    add_area(&lists, 0x0000);
    add_service(&lists, 0x1009);
    add_service(&lists, 0x1008);
    keys(0x0000, AES);
    keys(0x1008, AES);
    turned_down(BY_KEYS, none, missing(0x1009));
    // no area is needed with AES
    add_service(&lists, 0x1009);
    keys(0x1009, AES);
    accepted(AES, none, AES);
}

// Each service code's low six bits, as the only service: DES needs its key, or says 8.
static void key_free_codes(void)
{
    unsigned low;

    for (low = 0; low < 64; low++) {
        int is_free = low == 9 || low == 11 || low == 13 || low == 15 || low == 17 || low == 19 || low == 21 || low == 23;

        clear(&lists);
        add_area(&lists, 0x0000);
        keys(SYSTEM, DES);
        keys(0x0000, DES);
        add_service(&lists, 0x1000 + low);
        turned_down(DES, text_of(NULL, 0), is_free ? 8 : missing(0x1000 + low));
    }
}

// Bytes that change nothing: the last 8 of a DES key. Bytes that do, with AES. And an individual key of zeros is as none.
static void same_bytes(void)
{
    struct call c;
    uint8_t first[32], second[32];
    unsigned algorithm;

    for (algorithm = DES; algorithm <= AES; algorithm++) {
        size_t n = derived_size(algorithm), at;

        clear(&lists);
        add_area(&lists, 0x0000);
        add_service(&lists, 0x1008);
        keys(0x0000, algorithm);
        keys(0x1008, algorithm);
        keys(SYSTEM, algorithm);
        c = derivation(&lists, BY_KEYS);
        derives(&c, algorithm, n, NULL, first);
        for (at = 3; at < 19; at++) {
            // the lowest bit of each DES key byte is not used
            lists.keys[at] ^= 0x10;
            derives(&c, algorithm, n, NULL, second);
            check((memcmp(first, second, n) == 0) == (algorithm == DES && at >= 3 + 8), "bytes of a key entry");
            lists.keys[at] ^= 0x10;
        }
        if (algorithm == AES) {
            c.individual = text_of(zeros, 16);
            derives(&c, algorithm, n, first, NULL);
            c.individual = sample(7, 16);
            derives(&c, algorithm, n, NULL, second);
            check(memcmp(first, second, 16) == 0 && memcmp(second + 16, c.individual.at, 16) == 0, "the individual key");
        }
    }
}

// ---- marks, algorithms and fixed lengths

// A derivation that is accepted, under any mark, in the scheme.
static struct call good(unsigned scheme, unsigned mark)
{
    clear(&lists);
    add_area(&lists, 0x0000);
    add_service(&lists, 0x1008);
    keys(0x0000, scheme);
    keys(SYSTEM, scheme);
    keys(0x1008, scheme);
    // nobody needs this one
    keys(0x2000, scheme);
    return derivation(&lists, mark);
}

static void fixed_lengths(unsigned scheme, unsigned mark)
{
    // the last ones would be right if they were cut to 8 or 16 bits
    static const size_t odd[] = {256, 256 + 16, 65536, 65536 + 16};
    struct call c;
    size_t i, n;

    for (i = 0; i < 80 + sizeof odd / sizeof odd[0]; i++) {
        n = i < 80 ? i : odd[i - 80];
        if (n != 0 && n != 16) {
            c = good(scheme, mark);
            c.individual = sample((unsigned)i, n);
            refuses(&c, FELICA_BAD_MARK_OR_LENGTH);
        }
        if (n < 80 && n % 19 != 0) {
            c = good(scheme, mark);
            c.credentials.n = n;
            refuses(&c, FELICA_BAD_MARK_OR_LENGTH);
        }
        if (n < 80 && n % 2 == 1) {
            c = good(scheme, mark);
            c.areas.n = n;
            refuses(&c, FELICA_BAD_MARK_OR_LENGTH);
            c = good(scheme, mark);
            c.services.n = n;
            refuses(&c, FELICA_BAD_MARK_OR_LENGTH);
        }
    }
    // a list that would be whole if its length were cut, and is not
    c = good(scheme, mark);
    c.credentials = sample(1, 65536 + 4 * 19);
    refuses(&c, FELICA_BAD_MARK_OR_LENGTH);
}

static void marks_and_algorithms(unsigned scheme)
{
    struct call c;
    unsigned mark, place;

    for (mark = 3; mark < 256; mark++) {
        c = good(scheme, mark);
        refuses(&c, FELICA_BAD_MARK_OR_LENGTH);
    }
    for (mark = 0; mark < 256; mark++) {
        for (place = 0; mark != 1 && mark != 2 && place < 4; place++) {
            c = good(scheme, mark % 3);
            lists.keys[place * 19 + 2] = (uint8_t)mark;
            refuses(&c, FELICA_BAD_MARK_OR_LENGTH);
        }
    }
}

// ---- how many

// Lists as long as they may be, and longer: `extra` keys, areas and services.
static void limit(unsigned scheme, unsigned mark, unsigned extra_keys, unsigned extra_areas, unsigned extra_services)
{
    struct call c;
    unsigned i;

    clear(&lists);
    for (i = 0; i < 32 + extra_areas; i++) {
        add_area(&lists, i);
    }
    for (i = 0; i < 32 + extra_services; i++) {
        add_service(&lists, 0x2000 + i);
    }
    keys(SYSTEM, scheme);
    for (i = 0; i < 127 + extra_keys; i++) {
        keys(i < 40 ? i : i < 80 ? 0x2000 + i - 40 : 0x3000 + i, scheme);
    }
    c = derivation(&lists, mark);
    check((derivation_of(&c).answer == 1) == (extra_keys + extra_areas + extra_services != 0), "the test's own answer is another");
    as_document(&c);
}

static void limits(unsigned scheme, unsigned mark)
{
    static uint8_t many[70000];
    // with the last ones a count or a length that is cut to 8 or 16 bits would be a good one
    static const size_t counts[] = {33, 34, 64, 65, 128, 255, 256, 257, 288, 289, 3000};
    struct call c;
    size_t i, at;

    limit(scheme, mark, 0, 0, 0);
    limit(scheme, mark, 1, 0, 0);
    limit(scheme, mark, 0, 1, 0);
    limit(scheme, mark, 0, 0, 1);
    limit(scheme, mark, 70, 30, 30);
    for (i = 0; i < sizeof counts / sizeof counts[0]; i++) {
        memset(many, 0, sizeof many);
        c = good(scheme, mark);
        c.areas = text_of(many, counts[i] * 2);
        refuses(&c, FELICA_TOO_MANY_ENTRIES);
        c = good(scheme, mark);
        c.services = text_of(many, counts[i] * 2);
        refuses(&c, FELICA_TOO_MANY_ENTRIES);
        for (at = 0; at < counts[i] * 19; at += 19) {
            many[at] = (uint8_t)(at / 19 % 256);
            many[at + 1] = (uint8_t)(at / 19 / 256);
            many[at + 2] = (uint8_t)scheme;
        }
        c = good(scheme, mark);
        c.credentials = text_of(many, counts[i] * 19);
        if (counts[i] > 128) {
            refuses(&c, FELICA_TOO_MANY_ENTRIES);
        }
    }
    c = good(scheme, mark);
    c.areas = text_of(many, 65536 + 2);
    refuses(&c, FELICA_TOO_MANY_ENTRIES);
    c = good(scheme, mark);
    c.services = text_of(many, 65536 + 2);
    refuses(&c, FELICA_TOO_MANY_ENTRIES);
}

void derivations(void)
{
    unsigned mark, scheme;

    part("derivations");
    for (mark = BY_KEYS; mark <= AES; mark++) {
        examples_of_keys(mark);
    }
    examples();
    rows_des();
    rows_of_nodes();
    targets();
    targets_of_both();
    targets_without_keyed_service();
    chains();
    chains_with_key_free_service();
    key_free_codes();
    same_bytes();
    for (scheme = DES; scheme <= AES; scheme++) {
        for (mark = BY_KEYS; mark <= AES; mark++) {
            struct call c = good(scheme, mark);

            as_document(&c);
            fixed_lengths(scheme, mark);
            limits(scheme, mark);
        }
        marks_and_algorithms(scheme);
    }
}
