/* Refuses one allocation of a program: that whose number FAIL_ALLOC gives, from 1. Loaded in front of the C library, by bench/fail_alloc.
   What the C library takes for itself before `main` counts too. With no number nothing is refused, and where ALLOCATIONS names a file the
   count stands there at the end. */
#include <errno.h>
#include <stdio.h>
#include <stdlib.h>

void *__libc_malloc(size_t);
void *__libc_calloc(size_t, size_t);
void *__libc_realloc(void *, size_t);
void *__libc_memalign(size_t, size_t);

static unsigned long taken, refused;

__attribute__((constructor)) static void begin(void) {
    const char *number = getenv("FAIL_ALLOC");
    refused = number ? strtoul(number, NULL, 10) : 0;
    taken = 0;
}

__attribute__((destructor)) static void end(void) {
    const char *name = getenv("ALLOCATIONS");
    if (!name) return;
    unsigned long all = taken;
    refused = 0;
    FILE *file = fopen(name, "w");
    if (file) {
        fprintf(file, "%lu\n", all);
        fclose(file);
    }
}

static int refuses(void) {
    if (++taken != refused) return 0;
    errno = ENOMEM;
    return 1;
}

void *malloc(size_t size) { return refuses() ? NULL : __libc_malloc(size); }
void *calloc(size_t count, size_t size) { return refuses() ? NULL : __libc_calloc(count, size); }
void *realloc(void *old, size_t size) { return refuses() ? NULL : __libc_realloc(old, size); }
void *memalign(size_t align, size_t size) { return refuses() ? NULL : __libc_memalign(align, size); }
void *aligned_alloc(size_t align, size_t size) { return refuses() ? NULL : __libc_memalign(align, size); }
int posix_memalign(void **at, size_t align, size_t size) {
    if (refuses()) return ENOMEM;
    *at = __libc_memalign(align, size);
    return *at ? 0 : ENOMEM;
}
