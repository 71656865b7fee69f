/* Refuses one growth of memory: the call of malloc, calloc or realloc whose number the variable
   REFUSED says, counted from 1. It writes a byte to the file that REFUSED_MARK names. */
#define _GNU_SOURCE
#include <dlfcn.h>
#include <fcntl.h>
#include <stdlib.h>
#include <unistd.h>

static long calls;

static int is_refused(void) {
    const char *number = getenv("REFUSED");
    long call = __atomic_add_fetch(&calls, 1, __ATOMIC_SEQ_CST);
    if (number == NULL || call != atol(number))
        return 0;
    int mark = open(getenv("REFUSED_MARK"), O_WRONLY);
    if (write(mark, "r", 1) != 1)
        abort();
    close(mark);
    return 1;
}

void *malloc(size_t size) {
    void *(*next)(size_t) = (void *(*)(size_t))dlsym(RTLD_NEXT, "malloc");
    return is_refused() ? NULL : next(size);
}

void *calloc(size_t count, size_t size) {
    void *(*next)(size_t, size_t) = (void *(*)(size_t, size_t))dlsym(RTLD_NEXT, "calloc");
    return is_refused() ? NULL : next(count, size);
}

void *realloc(void *block, size_t size) {
    void *(*next)(void *, size_t) = (void *(*)(void *, size_t))dlsym(RTLD_NEXT, "realloc");
    return is_refused() ? NULL : next(block, size);
}
