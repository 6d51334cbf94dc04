#include "check.h"

#include "call.h"

#include <signal.h>
#include <stdio.h>
#include <string.h>
#include <unistd.h>

static const char *current = "start";

void part(const char *name)
{
    current = name;
}

static void fail(const char *what)
{
    static char line[600];
    int n = snprintf(line, sizeof line, "%s: %s; last was ", current, what);

    describe_call(line + n, sizeof line - (size_t)n);
    n = (int)strlen(line);
    line[n] = '\n';
    // the status says the rest, where this cannot be written
    if (write(STDERR_FILENO, line, (size_t)n + 1) < 0) {
        _exit(1);
    }
    _exit(1);
}

void check(int holds, const char *what)
{
    if (!holds) {
        fail(what);
    }
}

static void on_fault(int signal_number)
{
    (void)signal_number;
    fail("a read or a write outside the buffers");
}

void watch_faults(void)
{
    struct sigaction action;

    memset(&action, 0, sizeof action);
    action.sa_handler = on_fault;
    check(sigaction(SIGSEGV, &action, NULL) == 0, "sigaction");
    check(sigaction(SIGBUS, &action, NULL) == 0, "sigaction");
}
