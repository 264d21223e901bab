// For LD_PRELOAD: makes one allocation of a program fail, of the number in REFUSE_AT, counted from 1 over all threads; none if it is 0.
// At the end, which is a call of `_exit`, it writes the number of allocations to the file COUNT_TO.
#define _GNU_SOURCE
#include <dlfcn.h>
#include <errno.h>
#include <stdatomic.h>
#include <stdio.h>
#include <stdlib.h>
#include <sys/syscall.h>
#include <unistd.h>

static atomic_long allocations;
static long refused_number = -1;
static void *(*next_malloc)(size_t);
static void *(*next_calloc)(size_t, size_t);
static void *(*next_realloc)(void *, size_t);
static void *(*next_aligned_alloc)(size_t, size_t);
static int (*next_posix_memalign)(void **, size_t, size_t);

// Counts from here on, once the program is loaded.
__attribute__((constructor)) static void begin(void) {
    next_malloc = dlsym(RTLD_NEXT, "malloc");
    next_calloc = dlsym(RTLD_NEXT, "calloc");
    next_realloc = dlsym(RTLD_NEXT, "realloc");
    next_aligned_alloc = dlsym(RTLD_NEXT, "aligned_alloc");
    next_posix_memalign = dlsym(RTLD_NEXT, "posix_memalign");
    const char *at = getenv("REFUSE_AT");
    refused_number = at ? atol(at) : 0;
}

void _exit(int status) {
    long count = allocations;
    refused_number = -1;
    const char *name = getenv("COUNT_TO");
    FILE *file = name ? fopen(name, "w") : NULL;
    if (file) {
        fprintf(file, "%ld\n", count);
        fclose(file);
    }
    syscall(SYS_exit_group, status);
    __builtin_unreachable();
}

static int is_refused(void) {
    if (refused_number < 0) return 0;
    return atomic_fetch_add(&allocations, 1) + 1 == refused_number;
}

extern void *__libc_malloc(size_t);
extern void *__libc_calloc(size_t, size_t);
extern void *__libc_realloc(void *, size_t);

void *malloc(size_t size) {
    if (is_refused()) { errno = ENOMEM; return NULL; }
    return next_malloc ? next_malloc(size) : __libc_malloc(size);
}

void *calloc(size_t count, size_t size) {
    if (is_refused()) { errno = ENOMEM; return NULL; }
    return next_calloc ? next_calloc(count, size) : __libc_calloc(count, size);
}

void *realloc(void *old, size_t size) {
    if (is_refused()) { errno = ENOMEM; return NULL; }
    return next_realloc ? next_realloc(old, size) : __libc_realloc(old, size);
}

void *aligned_alloc(size_t alignment, size_t size) {
    if (is_refused()) { errno = ENOMEM; return NULL; }
    return next_aligned_alloc(alignment, size);
}

int posix_memalign(void **made, size_t alignment, size_t size) {
    if (is_refused()) return ENOMEM;
    return next_posix_memalign(made, alignment, size);
}
