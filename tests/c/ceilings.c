#include "parts.h"

#include "check.h"
#include "model_frames.h"
#include "model_session.h"

#include "../../include/felica_secure.h"

static struct session under(unsigned scheme, unsigned number, unsigned ceiling)
{
    struct session s = session_of(scheme, number % 64 + 900, number % 65);

    s.number = number;
    s.ceiling = ceiling;
    s.turned = ceiling * 40503 % 65536;
    return s;
}

// Numbers and ceilings at both ends of their range, and where their bytes begin and end, are made as they are given.
static void made(unsigned scheme)
{
    static const unsigned ends[] = {0, 1, 0xFF, 0x100, 0x7FFF, 0x8000, 0xFFFE, 0xFFFF};
    enum { ENDS = sizeof ends / sizeof ends[0] };
    uint8_t bytes[RECORD];
    unsigned i;

    for (i = 0; i < ENDS * ENDS; i++) {
        struct session s = under(scheme, ends[i / ENDS], ends[i % ENDS]);
        struct call c = making_of(&s);

        c.operation = MAKE_UNDER;
        s.turned = 0;
        write_session(&s, bytes);
        makes(&c, bytes);
    }
}

// A step of a session: its answer is `wanted`, and its bytes are those of the model.
static void steps(struct session *s, unsigned place, uint64_t wanted)
{
    check(holds(s, with_session(STEP, NULL), 0, place) == wanted, "the step under a ceiling");
}

static void sets(struct session *s, unsigned number)
{
    struct call c = with_session(SET, NULL);

    c.number = (uint16_t)number;
    holds(s, c, 0, number);
}

// The table of the request.
static void examples(unsigned scheme)
{
    static const struct {
        unsigned number, ceiling;
        uint64_t answer;
    } rows[] = {
        {4, 5, (uint64_t)5 << 32},
        {5, 5, 9},
        {6, 5, 9},
        {0, 0, 9},
        {0xFFFE, 0xFFFF, (uint64_t)0xFFFF << 32},
        {0xFFFF, 0xFFFF, 9},
    };
    size_t i;

    for (i = 0; i < sizeof rows / sizeof rows[0]; i++) {
        struct session s = under(scheme, rows[i].number, rows[i].ceiling);

        steps(&s, (unsigned)i, rows[i].answer);
    }
}

// Every ceiling, with the number before it, at it and behind it.
static void around(void)
{
    unsigned ceiling, number;

    for (ceiling = 0; ceiling <= 0xFFFF; ceiling++) {
        for (number = ceiling == 0 ? 0 : ceiling - 1; number <= ceiling + 1 && number <= 0xFFFF; number++) {
            struct session s = under(1 + number % 2, number, ceiling);

            steps(&s, ceiling, number < ceiling ? (uint64_t)(number + 1) << 32 : FELICA_NUMBER_EXHAUSTED);
        }
    }
}

// Every number under a ceiling.
static void numbers(unsigned ceiling)
{
    unsigned number;

    for (number = 0; number <= 0xFFFF; number++) {
        struct session s = under(1 + number % 2, number, ceiling);

        steps(&s, number, number < ceiling ? (uint64_t)(number + 1) << 32 : FELICA_NUMBER_EXHAUSTED);
    }
}

// Under a ceiling of 5: set past it, refused; set below it, it steps again, until it stands there.
static void set_past(unsigned scheme)
{
    struct session s = under(scheme, 0, 5);

    sets(&s, 9);
    steps(&s, 0, FELICA_NUMBER_EXHAUSTED);
    sets(&s, 5);
    steps(&s, 1, FELICA_NUMBER_EXHAUSTED);
    sets(&s, 4);
    steps(&s, 2, (uint64_t)5 << 32);
    steps(&s, 3, FELICA_NUMBER_EXHAUSTED);
    sets(&s, 0xFFFF);
    steps(&s, 0, FELICA_NUMBER_EXHAUSTED);
    sets(&s, 0);
    steps(&s, 1, (uint64_t)1 << 32);
}

// A response with this number, which the session takes, past its ceiling too.
static void takes_response(struct session *s, unsigned number)
{
    struct call sealing = sealing_of(s, 0x43, number, sample(number, 16)), c = with_session(APPLY, NULL);
    uint8_t data[256];

    c.code = 0x43;
    c.data = text_of(data, seal_of(&sealing, data));
    check(holds(s, c, 16, number) == ((uint64_t)number << 32 | (uint64_t)16 << 16), "a response past the ceiling");
    check(s->number == number, "the number of that response");
}

static void answered_past(unsigned scheme)
{
    struct session s = under(scheme, 4, 5);
    struct call c = with_session(SEAL_IN, NULL);

    takes_response(&s, 6);
    steps(&s, 0, FELICA_NUMBER_EXHAUSTED);
    takes_response(&s, 9);
    // a command with number 9 under a ceiling of 5
    c.data = sample(1, 24);
    check(holds(&s, c, 300, 1) % 256 == FELICA_OK, "a command past the ceiling");
    takes_response(&s, 0xFFFF);
    steps(&s, 2, FELICA_NUMBER_EXHAUSTED);
    sets(&s, 4);
    steps(&s, 3, (uint64_t)5 << 32);
}

// How many commands a ceiling lets through from number 0 on: each is stepped for, and answered with the next number if the card answers.
static unsigned commands(unsigned scheme, unsigned ceiling, int answering)
{
    struct session s = under(scheme, 0, ceiling);
    unsigned n = 0;

    while (holds(&s, with_session(STEP, NULL), 0, n) != FELICA_NUMBER_EXHAUSTED) {
        n++;
        if (answering) {
            takes_response(&s, s.number + 1);
        }
    }
    return n;
}

static void how_many(unsigned scheme)
{
    unsigned ceiling;

    for (ceiling = 0; ceiling <= 40; ceiling++) {
        check(commands(scheme, ceiling, 0) == ceiling, "how many commands without responses");
        check(commands(scheme, ceiling, 1) == (ceiling + 1) / 2, "how many commands with responses");
    }
}

void ceilings(void)
{
    static const unsigned some[] = {0, 1, 0x7FFF, 0xFFFE, 0xFFFF};
    unsigned scheme;
    size_t i;

    part("ceilings");
    for (scheme = 1; scheme <= 2; scheme++) {
        made(scheme);
        examples(scheme);
        set_past(scheme);
        answered_past(scheme);
        how_many(scheme);
    }
    around();
    for (i = 0; i < sizeof some / sizeof some[0]; i++) {
        numbers(some[i]);
    }
}
