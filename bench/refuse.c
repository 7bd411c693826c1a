/* Refuses one allocation of a program, the one whose number stands in REFUSE, from 1: to be named in LD_PRELOAD. Where COUNT is set, it says
   at the end on standard error how many allocations there were. For glibc. */
#include <errno.h>
#include <stddef.h>
#include <stdio.h>
#include <stdlib.h>
#include <sys/syscall.h>
#include <unistd.h>

extern void *__libc_malloc(size_t);
extern void *__libc_calloc(size_t, size_t);
extern void *__libc_realloc(void *, size_t);
extern void *__libc_memalign(size_t, size_t);

static long made, refused;

__attribute__((constructor)) static void begin(void) {
    const char *number = getenv("REFUSE");
    refused = number ? atol(number) : 0;
    made = 0;
}

__attribute__((destructor)) static void end(void) {
    if (getenv("COUNT"))
        fprintf(stderr, "allocations: %ld\n", made);
}

/* A program that leaves by _exit runs no destructor. */
void _exit(int status) {
    end();
    syscall(SYS_exit_group, status);
    __builtin_unreachable();
}

static int is_refused(void) {
    if (__sync_add_and_fetch(&made, 1) != refused)
        return 0;
    errno = ENOMEM;
    return 1;
}

void *malloc(size_t size) {
    return is_refused() ? NULL : __libc_malloc(size);
}

void *calloc(size_t count, size_t size) {
    return is_refused() ? NULL : __libc_calloc(count, size);
}

void *realloc(void *old, size_t size) {
    return is_refused() ? NULL : __libc_realloc(old, size);
}

void *memalign(size_t align, size_t size) {
    return is_refused() ? NULL : __libc_memalign(align, size);
}

void *aligned_alloc(size_t align, size_t size) {
    return is_refused() ? NULL : __libc_memalign(align, size);
}

int posix_memalign(void **to, size_t align, size_t size) {
    if (is_refused())
        return ENOMEM;
    *to = __libc_memalign(align, size);
    return *to ? 0 : ENOMEM;
}
