// One call under memcheck, with its secrets marked. What memcheck then reports is read by tests/ct/report.py.
//
//     ct          a line for each call: its function, what it is called with, the number that it answers
//     ct N        makes call N, and prints the length that it answers; status 0 where it answered the number that it has to, and all of its
//                 output but an open front is secret
#include "scenes.h"
#include "secret.h"

#include "../../include/felica_secure.h"

#include <stdio.h>
#include <stdlib.h>

static int fail(const struct scene *s, const char *what)
{
    fprintf(stderr, "%s, %s: %s\n", s->function, s->with, what);
    return 1;
}

// Secrecy that got lost on the way would make the report too short: the output of an accepted call has to carry it.
static int judge(const struct scene *s, uint64_t answer)
{
    size_t n, front, marked;

    known(&answer, sizeof answer);
    n = felica_answer_length(answer);
    printf("%zu\n", n);
    if (felica_answer_number(answer) != s->number) {
        return fail(s, "not the number that it has to be");
    }
    if (s->number == 0 && !length_fits(s, n)) {
        return fail(s, "not the length that it has to be");
    }
    if (s->number != 0 || s->open_front >= sizeof out) {
        return 0;
    }
    front = s->open_front;
    marked = secret_bytes(out + front, n - front);
    known(out, sizeof out);
    return marked == n - front ? 0 : fail(s, "bytes of the output that no secret has reached");
}

int main(int argc, char **argv)
{
    size_t i;

    if (argc < 2) {
        for (i = 0; i < scenes_count; i++) {
            printf("%s|%s|%u\n", scenes[i].function, scenes[i].with, scenes[i].number);
        }
        return 0;
    }
    i = (size_t)atoi(argv[1]);
    if (i >= scenes_count || !watched()) {
        fprintf(stderr, "no such call, or not under valgrind\n");
        return 2;
    }
    return judge(&scenes[i], scenes[i].run(&scenes[i]));
}
