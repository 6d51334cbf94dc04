#include "shot.h"

#include "../c/pass.h"

#include <string.h>

static struct given given_of(const struct shot *s)
{
    struct given g;
    int i;

    g.operation = s->op;
    g.scheme = s->scheme;
    g.code = s->code;
    g.number = s->number;
    g.ceiling = s->ceiling;
    for (i = 0; i < INPUTS; i++) {
        g.in[i] = text_of(s->in[i].at, s->in[i].n);
    }
    return g;
}

void fire(const struct shot *s, size_t room, unsigned place, uint8_t ink, struct result *r)
{
    static uint8_t inks[OUTPUT_MAX + 2 * AROUND];
    struct given g = given_of(s);
    struct passed p;

    memset(inks, ink, sizeof inks);
    pass(&g, room, (enum place)place, inks, &p);
    r->answer = p.answer;
    if (p.n != 0) {
        memcpy(r->out, p.out, p.n);
    }
    if (s->in[IN_SESSION].n != 0) {
        memcpy(r->session, p.session, s->in[IN_SESSION].n);
    }
}
