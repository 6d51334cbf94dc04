#include "models.h"

#include <string.h>

int model_of(const struct call *c, struct modelled *m)
{
#define MODEL(family) model_##family,
    static int (*const models[family_count])(const struct call *, struct modelled *) = {FAMILIES(MODEL)};
#undef MODEL

    memset(m, 0, sizeof *m);
    return models[family_of(c->operation)](c, m);
}
