// Refuses allocations of a program, as the environment says:
//
// - REFUSE: the number, from 1, of the one allocation that is refused;
// - REFUSE_BEHIND: a size; all behind the first allocation of just so many bytes are refused. So a program can say
//   where its memory ends, by asking for them;
// - REFUSE_TOLD: the file descriptor that gets a byte for each allocation that is refused; none: 9.
#define _GNU_SOURCE
#include <dlfcn.h>
#include <errno.h>
#include <stdatomic.h>
#include <stdlib.h>
#include <unistd.h>

static atomic_long seen, from;
static long one, size_of_mark;
static int told;

static long number_of(const char *name, long otherwise)
{
    const char *number = getenv(name);
    return number ? atol(number) : otherwise;
}

__attribute__((constructor)) static void read_environment(void)
{
    one = number_of("REFUSE", 0);
    size_of_mark = number_of("REFUSE_BEHIND", 0);
    told = (int)number_of("REFUSE_TOLD", 9);
}

static int refuses(size_t size)
{
    long now = atomic_fetch_add(&seen, 1) + 1;
    if (now != one && !(from && now >= from)) {
        if (size_of_mark && !from && size == (size_t)size_of_mark)
            from = now + 1;
        return 0;
    }
    (void)!write(told, "r", 1);
    errno = ENOMEM;
    return 1;
}

#define NEXT(name, type) \
    static __typeof__(type) next; \
    if (!next) \
        next = (__typeof__(type))dlsym(RTLD_NEXT, name)

void *malloc(size_t size)
{
    NEXT("malloc", void *(*)(size_t));
    return refuses(size) ? NULL : next(size);
}

void *realloc(void *old, size_t size)
{
    NEXT("realloc", void *(*)(void *, size_t));
    return refuses(size) ? NULL : next(old, size);
}

int posix_memalign(void **made, size_t alignment, size_t size)
{
    NEXT("posix_memalign", int (*)(void **, size_t, size_t));
    return refuses(size) ? ENOMEM : next(made, alignment, size);
}

void *aligned_alloc(size_t alignment, size_t size)
{
    NEXT("aligned_alloc", void *(*)(size_t, size_t));
    return refuses(size) ? NULL : next(alignment, size);
}
