/* Refuses allocations of the program that it is preloaded into, so that a run without memory can be tried.
 *
 * The calls of malloc, calloc and realloc are counted from 1, from the start of main on. FAIL_ALLOC_FROM is the first that
 * is refused and FAIL_ALLOC_LAST the last; without them none is. The count of all calls is written to the file
 * FAIL_ALLOC_COUNT at the end, if that is named.
 *
 * cc -shared -fPIC -O2 -o fail_alloc.so fail_alloc.c -ldl; FAIL_ALLOC_FROM=3 FAIL_ALLOC_LAST=3 LD_PRELOAD=./fail_alloc.so PROGRAM ..
 */
#define _GNU_SOURCE
#include <dlfcn.h>
#include <errno.h>
#include <stdatomic.h>
#include <stddef.h>
#include <stdio.h>
#include <stdlib.h>
#include <sys/syscall.h>
#include <unistd.h>

static atomic_ullong calls;
static unsigned long long first_refused, last_refused;
static void *(*real_malloc)(size_t);
static void *(*real_calloc)(size_t, size_t);
static void *(*real_realloc)(void *, size_t);

/* dlsym itself may ask for memory before it has found the real calls; this much serves it. */
static char early[4096];
static size_t early_used;

static void *from_early(size_t size)
{
    size_t start = (early_used + 15) & ~(size_t)15;
    if (size > sizeof early - start)
        abort();
    early_used = start + size;
    return early + start;
}

static unsigned long long number_in(const char *name)
{
    const char *text = getenv(name);
    return text ? strtoull(text, NULL, 10) : 0;
}

__attribute__((constructor)) static void begin(void)
{
    real_malloc = (void *(*)(size_t))dlsym(RTLD_NEXT, "malloc");
    real_calloc = (void *(*)(size_t, size_t))dlsym(RTLD_NEXT, "calloc");
    real_realloc = (void *(*)(void *, size_t))dlsym(RTLD_NEXT, "realloc");
    first_refused = number_in("FAIL_ALLOC_FROM");
    last_refused = number_in("FAIL_ALLOC_LAST");
    atomic_store(&calls, 0);
}

static void tell_count(void)
{
    unsigned long long count = atomic_load(&calls);
    const char *name = getenv("FAIL_ALLOC_COUNT");
    FILE *file = name ? fopen(name, "w") : NULL;
    if (file) {
        fprintf(file, "%llu\n", count);
        fclose(file);
    }
}

__attribute__((destructor)) static void end(void)
{
    tell_count();
}

/* A program of several threads may end by this call, which runs no destructor. */
void _exit(int status)
{
    tell_count();
    syscall(SYS_exit_group, status);
    __builtin_unreachable();
}

static int is_refused(void)
{
    unsigned long long call = atomic_fetch_add(&calls, 1) + 1;
    if (first_refused == 0 || call < first_refused || call > last_refused)
        return 0;
    errno = ENOMEM;
    return 1;
}

void *malloc(size_t size)
{
    if (!real_malloc)
        return from_early(size);
    return is_refused() ? NULL : real_malloc(size);
}

void *calloc(size_t count, size_t size)
{
    if (!real_calloc)
        return from_early(count * size);
    return is_refused() ? NULL : real_calloc(count, size);
}

void *realloc(void *old, size_t size)
{
    if (!real_realloc)
        return from_early(size);
    return is_refused() ? NULL : real_realloc(old, size);
}

void free(void *old)
{
    static void (*real_free)(void *);
    if ((char *)old >= early && (char *)old < early + sizeof early)
        return;
    if (!real_free)
        real_free = (void (*)(void *))dlsym(RTLD_NEXT, "free");
    real_free(old);
}
