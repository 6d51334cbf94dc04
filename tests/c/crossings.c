#include "parts.h"

#include "call.h"
#include "check.h"
#include "model_derivation.h"

#include "../../include/felica_secure.h"

#include <string.h>

// Derivations with every combination of what can be wrong with each of their parts, so that every order of the refusals is met; and
// generated ones. The answer of each is that of the document's order, written out in model_derivation.c.

// What the parts can be; none of the first is wrong in itself.
// Of the keys it is a set.
enum { KEYS_CUT = 1, KEYS_UNKNOWN = 2, KEYS_MANY = 4, KEYS_TWICE = 8, KEYS = 16 };
enum { AREAS_ONE, AREAS_NONE, AREAS_MANY, AREAS_CUT, AREAS };
enum { SERVICES_BEARING, SERVICES_NONE, SERVICES_FREE, SERVICES_MANY, SERVICES_CUT, SERVICES };
enum { INDIVIDUAL_NONE, INDIVIDUAL_GIVEN, INDIVIDUAL_SHORT, INDIVIDUALS };

// The keys of a node: bit 0 DES, bit 1 AES.
static void keys_of(struct lists *l, unsigned node, unsigned set)
{
    if (set & 1) {
        add_key(l, node, FELICA_ALGORITHM_DES, 3);
    }
    if (set & 2) {
        add_key(l, node, FELICA_ALGORITHM_AES128, 3);
    }
}

static void fill_keys(struct lists *l, int wrong, unsigned sets)
{
    unsigned i;

    keys_of(l, 0x1008, sets % 4);
    keys_of(l, 0x1009, sets % 4);
    keys_of(l, 0x0040, sets / 4 % 4);
    keys_of(l, FELICA_NODE_SYSTEM, sets / 16);
    if (wrong & KEYS_TWICE) {
        add_key(l, 0x3000, FELICA_ALGORITHM_DES, 4);
        add_key(l, 0x3000, FELICA_ALGORITHM_DES, 5);
    }
    for (i = 0; wrong & KEYS_MANY && l->keys_n < 129 * 19; i++) {
        add_key(l, 0x4000 + i, FELICA_ALGORITHM_AES128, 6);
    }
    if (wrong & KEYS_UNKNOWN) {
        add_key(l, 0x5000, 0, 7);
    }
    l->keys_n += wrong & KEYS_CUT;
}

static void fill_nodes(struct lists *l, int areas, int services)
{
    int i;

    for (i = 0; areas != AREAS_NONE && i < (areas == AREAS_MANY ? 33 : 1); i++) {
        add_area(l, 0x0040);
    }
    for (i = 0; services != SERVICES_NONE && i < (services == SERVICES_MANY ? 33 : 1); i++) {
        add_service(l, services == SERVICES_FREE ? 0x1009 : 0x1008);
    }
    l->areas_n += areas == AREAS_CUT;
    l->services_n += services == SERVICES_CUT;
}

// In exactly the room that it takes, in one byte less, and in none; a refusal in room and in none.
static void in_rooms(const struct call *c, unsigned place, unsigned long *seen)
{
    struct modelled d = derivation_of(c);
    size_t n = felica_answer_length(d.answer);

    seen[d.answer % 256]++;
    answers(c, n, place, d.answer, d.bytes);
    if (n == 0) {
        answers(c, 300, place + 1, d.answer, d.bytes);
    } else {
        answers(c, n - 1, place + 1, FELICA_OUTPUT_TOO_SMALL, d.bytes);
        answers(c, 0, place + 2, FELICA_OUTPUT_TOO_SMALL, d.bytes);
    }
}

static void cross(unsigned mark, unsigned long *seen)
{
    static struct lists l;
    unsigned long number = 0;
    int keys, areas, services, individual;
    unsigned sets;

    for (keys = 0; keys < KEYS; keys++) {
        for (areas = 0; areas < AREAS; areas++) {
            for (services = 0; services < SERVICES; services++) {
                // long lists take long, and what comes behind 1 they do not show
                for (sets = 0; sets < 64; sets += keys & KEYS_MANY ? 7 : 1) {
                    clear(&l);
                    fill_keys(&l, keys, sets);
                    fill_nodes(&l, areas, services);
                    for (individual = 0; individual < INDIVIDUALS; individual++) {
                        struct call c = derivation(&l, mark);

                        c.individual = sample(8, individual == INDIVIDUAL_NONE ? 0 : individual == INDIVIDUAL_GIVEN ? 16 : 8);
                        in_rooms(&c, (unsigned)number++, seen);
                    }
                }
            }
        }
    }
}

// ---- generated: nodes of a small pool, keys of most of them

static unsigned draw(unsigned below)
{
    static uint64_t state = 20;

    state = state * 6364136223846793005u + 1442695040888963407u;
    return (unsigned)(state >> 33) % below;
}

static void generate(struct lists *l)
{
    static const unsigned pool[] = {0x0000, 0x0040, 0x1007, 0x1008, 0x1009, 0x1017, 0x1019, 0x4048, 0x404B, FELICA_NODE_SYSTEM};
    unsigned n = sizeof pool / sizeof pool[0], main = draw(2) + 1, i;

    clear(l);
    for (i = draw(4); i > 0; i--) {
        add_area(l, pool[draw(n)]);
    }
    for (i = draw(5); i > 0; i--) {
        add_service(l, pool[draw(n)]);
    }
    // the keys in some order, most nodes with one of the main algorithm
    for (i = 0; i < n; i++) {
        unsigned node = pool[(i * 3 + main) % n];

        if (draw(12) != 0) {
            add_key(l, node, main, draw(100));
        }
        if (draw(6) == 0) {
            add_key(l, node, 3 - main, draw(100));
        }
        if (draw(150) == 0) {
            add_key(l, node, main, draw(100));
        }
    }
}

void crossings(void)
{
    static struct lists l;
    unsigned long seen[18] = {0}, drawn[18] = {0};
    unsigned mark, i;

    part("derivations, everything crossed");
    for (mark = 0; mark <= 3; mark++) {
        cross(mark, seen);
    }
    part("derivations, generated");
    for (i = 0; i < 20000; i++) {
        struct call c;

        generate(&l);
        c = derivation(&l, draw(3));
        c.individual = sample(i, draw(3) == 0 ? 16 : 0);
        in_rooms(&c, i, drawn);
    }
    for (i = 0; i <= 8; i++) {
        check(seen[i] >= 20 && drawn[i] >= (i == 1 ? 0 : 20), "a number that no derivation gave");
    }
    check(seen[17] >= 20, "no derivation gave 17");
}
