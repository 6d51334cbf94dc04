// The test of the test: the library with a fault, for each of those in the files faults_FAMILY.c, and the test has to notice. Each runs in
// a process of its own.
//
//     faults [-v] FILES     FILES are the stored answers; -v says for each fault what was noticed
#include "faults.h"

#include "check.h"

#include <stdio.h>
#include <string.h>
#include <sys/wait.h>
#include <unistd.h>

#define FAULTS_OF_FAMILY(family) &faults_##family,
static const struct faults *const families[family_count] = {FAMILIES(FAULTS_OF_FAMILY)};

// The arguments: files of stored answers.
static int files;
static char **paths;
static int loud;

// What a child said, and how it ended.
struct end {
    int status;
    char said[1000];
};

static void stop(void)
{
    perror("faults");
    _exit(2);
}

// The test with a fault, in the child.
static void test_with(const struct faults *f, int which, int to)
{
    *f->planted = which;
    if (dup2(to, STDERR_FILENO) < 0 || freopen("/dev/null", "w", stdout) == NULL) {
        _exit(0);
    }
    // first the part that can notice it: the others take longer
    if (which != 0 && f->first != NULL) {
        watch_faults();
        f->first();
    }
    _exit(all_parts(files, paths));
}

static struct end run(const struct faults *f, int which)
{
    struct end e;
    int ends[2];
    size_t at = 0;
    ssize_t got;
    pid_t child;

    fflush(stdout);
    if (pipe(ends) != 0 || (child = fork()) < 0) {
        stop();
    }
    if (child == 0) {
        close(ends[0]);
        test_with(f, which, ends[1]);
    }
    close(ends[1]);
    while (at < sizeof e.said - 1 && (got = read(ends[0], e.said + at, sizeof e.said - 1 - at)) > 0) {
        at += (size_t)got;
    }
    e.said[at] = 0;
    close(ends[0]);
    if (waitpid(child, &e.status, 0) != child) {
        stop();
    }
    return e;
}

// Answers 1 where the test notices it: a status other than 1 is not the test's own word.
static int noticed(const struct faults *f, int which)
{
    struct end e = run(f, which);
    int seen = WIFEXITED(e.status) && WEXITSTATUS(e.status) == 1 && e.said[0] != 0;

    if (loud) {
        printf("%s\n    %s", f->what[which], e.said);
    }
    if (!seen) {
        printf("not noticed: %s\n", f->what[which]);
    }
    return seen;
}

int main(int argc, char **argv)
{
    int planted = 0, missed = 0, family, which;
    struct end none;

    loud = argc > 1 && strcmp(argv[1], "-v") == 0;
    files = argc - 1 - loud;
    paths = argv + 1 + loud;
    none = run(families[0], 0);
    if (!WIFEXITED(none.status) || WEXITSTATUS(none.status) != 0 || none.said[0] != 0) {
        printf("with no fault: %s\n", none.said);
        return 1;
    }
    for (family = 0; family < family_count; family++) {
        for (which = 1; which <= families[family]->count; which++) {
            planted++;
            missed += !noticed(families[family], which);
        }
    }
    printf("%d faults planted, %d not noticed\n", planted, missed);
    return missed != 0;
}
