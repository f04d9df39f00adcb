// Stands between a program and its C library: one call of malloc or realloc is refused, the one whose number the variable
// REFUSED_ALLOCATION has, counted from 1. When that call comes, a file is made whose path the variable REFUSAL_MARK has.
#define _GNU_SOURCE
#include <dlfcn.h>
#include <errno.h>
#include <fcntl.h>
#include <stdlib.h>
#include <unistd.h>

static int is_refused(void) {
    static long calls;
    const char *number = getenv("REFUSED_ALLOCATION");
    if (!number || ++calls != atol(number)) return 0;
    int mark = open(getenv("REFUSAL_MARK"), O_CREAT | O_WRONLY, 0600);
    if (mark >= 0) close(mark);
    errno = ENOMEM;
    return 1;
}

void *malloc(size_t size) {
    static void *(*next)(size_t);
    if (!next) next = dlsym(RTLD_NEXT, "malloc");
    return is_refused() ? 0 : next(size);
}

void *realloc(void *block, size_t size) {
    static void *(*next)(void *, size_t);
    if (!next) next = dlsym(RTLD_NEXT, "realloc");
    return is_refused() ? 0 : next(block, size);
}
