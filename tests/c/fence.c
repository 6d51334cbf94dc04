#include "fence.h"

#include "check.h"

#include <sys/mman.h>
#include <unistd.h>

// An odd offset, so that nothing in the middle is aligned.
#define BEFORE 197

struct fence fence_of(size_t n)
{
    struct fence f;
    size_t page = (size_t)sysconf(_SC_PAGESIZE);
    size_t size = (n + page - 1) / page * page;
    uint8_t *all = mmap(NULL, size + 2 * page, PROT_READ | PROT_WRITE, MAP_PRIVATE | MAP_ANONYMOUS, -1, 0);

    check(all != MAP_FAILED, "mmap");
    check(mprotect(all, page, PROT_NONE) == 0, "mprotect");
    check(mprotect(all + page + size, page, PROT_NONE) == 0, "mprotect");
    f.start = all + page;
    f.end = f.start + size;
    return f;
}

uint8_t *place_in(const struct fence *f, size_t n, enum place where)
{
    check(n + 2 * BEFORE <= (size_t)(f->end - f->start), "the test's own memory is too small");
    switch (where) {
    case AT_START:
        return f->start;
    case AT_END:
        return f->end - n;
    case NULL_IF_EMPTY:
        if (n == 0) {
            return NULL;
        }
        return f->start + BEFORE;
    default:
        return f->start + BEFORE;
    }
}
