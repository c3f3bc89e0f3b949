// Refuses the allocation of number REFUSE, from 1, or with REFUSE_ALL all from it on, and says so on standard error.
#define _GNU_SOURCE
#include <dlfcn.h>
#include <errno.h>
#include <stdlib.h>
#include <unistd.h>

static unsigned long count;

static int refused(void) {
    const char *number = getenv("REFUSE");
    unsigned long first = number ? strtoul(number, 0, 10) : 0;
    count++;
    if (!first || count < first || (count > first && !getenv("REFUSE_ALL"))) return 0;
    if (write(2, "refused\n", 8) != 8) _exit(99);
    errno = ENOMEM;
    return 1;
}

void *malloc(size_t size) {
    static void *(*real)(size_t);
    if (!real) *(void **)&real = dlsym(RTLD_NEXT, "malloc");
    return refused() ? 0 : real(size);
}

void *realloc(void *old, size_t size) {
    static void *(*real)(void *, size_t);
    if (!real) *(void **)&real = dlsym(RTLD_NEXT, "realloc");
    return refused() ? 0 : real(old, size);
}
