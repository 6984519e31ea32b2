/* A preloaded allocator: it counts the calls of malloc and realloc, and answers NULL to the one of number REFUSE_AT.
   With REFUSE_EACH it refuses each in turn, in a child of the process, and waits for the child. */
#define _GNU_SOURCE
#include <dlfcn.h>
#include <fcntl.h>
#include <stdlib.h>
#include <sys/mman.h>
#include <sys/wait.h>
#include <unistd.h>

/* What is in the file REFUSE_COUNTS: how many calls came, how many were refused, and the first that failed a child. */
static struct { long calls, refused, failed; } own, *counts;

static int refuses_in_a_child(void)
{
    int status = -1;
    pid_t child = fork();
    if (child == 0) {
        own = *counts;
        counts = &own;
        alarm(600);
        unsetenv("REFUSE_EACH");
        return 1;
    }
    waitpid(child, &status, 0);
    counts->refused++;
    if (status && !counts->failed)
        counts->failed = counts->calls;
    return 0;
}

static int refuses(void)
{
    const char *at = getenv("REFUSE_AT");
    if (!counts) {
        int file = open(getenv("REFUSE_COUNTS"), O_CREAT | O_RDWR | O_TRUNC, 0600);
        if (file < 0 || ftruncate(file, sizeof own))
            abort();
        counts = mmap(NULL, sizeof own, PROT_READ | PROT_WRITE, MAP_SHARED, file, 0);
    }
    counts->calls++;
    if (getenv("REFUSE_EACH"))
        return refuses_in_a_child();
    return at && counts->calls == atol(at) && ++counts->refused;
}

void *malloc(size_t size)
{
    void *(*next)(size_t) = (void *(*)(size_t))dlsym(RTLD_NEXT, "malloc");
    return refuses() ? NULL : next(size);
}

void *realloc(void *old, size_t size)
{
    void *(*next)(void *, size_t) = (void *(*)(void *, size_t))dlsym(RTLD_NEXT, "realloc");
    return refuses() ? NULL : next(old, size);
}
