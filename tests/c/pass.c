#include "pass.h"

#include "check.h"
#include "layout.h"

#include "../../include/felica_secure.h"

#include <string.h>

// ---- buffers

static uint8_t *put(const struct fence *f, struct text t, enum place where)
{
    uint8_t *at = place_in(f, t.n, where);

    if (t.n != 0) {
        memcpy(at, t.at, t.n);
    }
    return at;
}

// A buffer that can be written, and what is around it.
struct watched {
    uint8_t *at, *low, *high;
    const uint8_t *before;
};

static struct watched watch(const struct fence *f, size_t n, enum place where, const uint8_t *ink)
{
    struct watched w;

    w.at = place_in(f, n, where);
    w.low = w.high = f->start;
    if (w.at != NULL) {
        w.low = (size_t)(w.at - f->start) < AROUND ? f->start : w.at - AROUND;
        w.high = (size_t)(f->end - w.at) - n < AROUND ? f->end : w.at + n + AROUND;
    }
    w.before = ink;
    memcpy(w.low, ink, (size_t)(w.high - w.low));
    return w;
}

// Nothing changed but its first n bytes.
static void only(const struct watched *w, size_t n)
{
    size_t kept;

    if (w->at != NULL) {
        kept = (size_t)(w->at - w->low);
        check(memcmp(w->low, w->before, kept) == 0, "a byte before the output or the session changed");
        kept += n;
        check(memcmp(w->low + kept, w->before + kept, (size_t)(w->high - w->low) - kept) == 0, "a byte behind what was written changed");
    }
}

static void inputs_unchanged(const struct given *g, uint8_t *const *in)
{
    int i;

    for (i = 0; i < INPUTS; i++) {
        if (g->in[i].n != 0 && !(i == IN_SESSION && has_trait(g->operation, CHANGES))) {
            check(memcmp(in[i], g->in[i].at, g->in[i].n) == 0, "an input changed");
        }
    }
}

// ---- answers

uint64_t missing(unsigned node)
{
    return FELICA_KEY_MISSING | (uint64_t)node << 32;
}

static void judge_answer(const struct given *g, uint64_t answer)
{
    enum operation operation = g->operation;
    unsigned number = felica_answer_number(answer), mark = mark_of(operation, g->scheme, g->in[IN_SESSION]);
    unsigned padding = has_trait(operation, PADS) ? padding_of(scheme_of(operation, mark), g->in[IN_DATA].n) : 0;

    check(number <= 17 && (numbers_of(operation, mark) >> number & 1) != 0, "a number that is not the function's");
    check(answer >> 56 == 0, "bits 56 to 63 are not 0");
    if (number != 0) {
        check(answer == number || (number == FELICA_KEY_MISSING && answer == missing(felica_answer_node(answer))),
              "a refusal with more than its number");
        return;
    }
    check(felica_answer_padding(answer) == padding, "a padding");
    check(has_trait(operation, SEEKS) ? felica_answer_scheme(answer) == 0 || felica_answer_scheme(answer) == mark
                                      : has_trait(operation, MARKED) == (felica_answer_scheme(answer) != 0),
          "a scheme, or none");
    check(has_trait(operation, NUMBERED) || felica_answer_transaction_number(answer) == 0, "a transaction number");
    check(takes(operation, TAKES_OUT) || has_trait(operation, TELLS) || felica_answer_length(answer) == 0, "a length");
}

// ---- the call

void pass(const struct given *g, size_t room, enum place where, const uint8_t *ink, struct passed *p)
{
    static struct fence inputs[INPUTS], outputs;
    uint8_t *in[INPUTS];
    struct watched session, out;
    int i;

    for (i = 0; outputs.start == NULL && i < INPUTS; i++) {
        inputs[i] = fence_of(DATA_MAX);
    }
    if (outputs.start == NULL) {
        outputs = fence_of(ROOM_MAX);
    }
    out = watch(&outputs, room, where, ink);
    session = watch(&inputs[IN_SESSION], g->in[IN_SESSION].n, where, ink);
    for (i = 0; i < INPUTS; i++) {
        in[i] = put(&inputs[i], g->in[i], where);
    }

    p->answer = 0;
    p->answer = invoke(g, in, out.at, room);
    judge_answer(g, p->answer);
    inputs_unchanged(g, in);
    only(&session, g->in[IN_SESSION].n);
    p->n = takes(g->operation, TAKES_OUT) ? felica_answer_length(p->answer) : 0;
    check(p->n <= room, "a length above the output's");
    only(&out, p->n);
    p->out = out.at;
    p->session = session.at;
}
