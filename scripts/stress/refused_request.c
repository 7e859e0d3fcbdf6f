/* Refuses a program one request for memory: the one of this number, counted from 1. For tests only:
 *
 *     cc -O2 -shared -fPIC -o refused_request.so refused_request.c
 *     LD_PRELOAD=./refused_request.so REFUSED_REQUEST=NUMBER PROGRAM
 */
#define _GNU_SOURCE
#include <dlfcn.h>
#include <errno.h>
#include <stdatomic.h>
#include <stddef.h>
#include <stdlib.h>

static atomic_long made;
static long refused;
static void *(*get)(size_t);
static void *(*resize)(void *, size_t);

__attribute__((constructor)) static void begin(void) {
    const char *number = getenv("REFUSED_REQUEST");
    refused = number ? atol(number) : 0;
}

static int is_refused(void) {
    if (atomic_fetch_add(&made, 1) + 1 != refused) return 0;
    errno = ENOMEM;
    return 1;
}

void *malloc(size_t size) {
    if (!get) get = dlsym(RTLD_NEXT, "malloc");
    return is_refused() ? NULL : get(size);
}

void *realloc(void *block, size_t size) {
    if (!resize) resize = dlsym(RTLD_NEXT, "realloc");
    return is_refused() ? NULL : resize(block, size);
}
