/* A library to be loaded before a program: the allocation whose number stands in REFUSE is refused, each other one is made. Allocations
 * are counted from 1, over malloc, calloc, realloc, aligned_alloc and posix_memalign; with REFUSE=0 none is refused. Where TELL is set,
 * the number of allocations is written to standard error at the end. */
#define _GNU_SOURCE
#include <dlfcn.h>
#include <errno.h>
#include <stddef.h>
#include <stdio.h>
#include <stdlib.h>

extern void *__libc_malloc(size_t);
extern void *__libc_calloc(size_t, size_t);
extern void *__libc_realloc(void *, size_t);
extern void *__libc_memalign(size_t, size_t);

static long count, refused = -1;

static int refuses(void) {
    if (refused < 0) {
        const char *word = getenv("REFUSE");
        refused = word ? atol(word) : 0;
    }
    count += 1;
    return count == refused;
}

void *malloc(size_t size) { return refuses() ? NULL : __libc_malloc(size); }
void *calloc(size_t number, size_t size) { return refuses() ? NULL : __libc_calloc(number, size); }
void *realloc(void *old, size_t size) { return refuses() ? NULL : __libc_realloc(old, size); }
void *aligned_alloc(size_t align, size_t size) { return refuses() ? NULL : __libc_memalign(align, size); }
int posix_memalign(void **at, size_t align, size_t size) {
    void *made = refuses() ? NULL : __libc_memalign(align, size);
    if (!made) return ENOMEM;
    *at = made;
    return 0;
}

__attribute__((destructor)) static void tell(void) {
    if (getenv("TELL")) fprintf(stderr, "%ld\n", count);
}
