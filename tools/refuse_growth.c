/* Loaded before a program (LD_PRELOAD), refuses one of its growths: the one whose number the variable HEK_REFUSE has, counted from 1 over all
   calls of malloc, calloc and realloc; with HEK_NEXT set the next one too. Says so on standard error, once. tools/refused_growths
   builds it. */
#define _GNU_SOURCE
#include <dlfcn.h>
#include <errno.h>
#include <stdatomic.h>
#include <stdlib.h>
#include <unistd.h>

static void *(*next_malloc)(size_t);
static void *(*next_calloc)(size_t, size_t);
static void *(*next_realloc)(void *, size_t);
static atomic_long left;
static long last;

/* What dlsym wants before the calls that these replace are known. */
static char early[4096];
static size_t early_used;

__attribute__((constructor)) static void begin(void)
{
    next_malloc = dlsym(RTLD_NEXT, "malloc");
    next_calloc = dlsym(RTLD_NEXT, "calloc");
    next_realloc = dlsym(RTLD_NEXT, "realloc");
    const char *number = getenv("HEK_REFUSE");
    atomic_store(&left, number ? atol(number) : 0);
    last = getenv("HEK_NEXT") ? 0 : 1;
}

static int is_refused(void)
{
    static const char said[] = "growth refused\n";
    long now = atomic_load(&left) < last ? last - 1 : atomic_fetch_sub(&left, 1);
    if (now > 1 || now < last)
        return 0;
    if (now == 1 && write(2, said, sizeof said - 1) < 0)
        abort();
    errno = ENOMEM;
    return 1;
}

static void *early_block(size_t size)
{
    size_t rounded = (size + 15) & ~(size_t)15;
    if (rounded > sizeof early - early_used)
        return NULL;
    early_used += rounded;
    return early + early_used - rounded;
}

void *malloc(size_t size)
{
    if (!next_malloc)
        return early_block(size);
    return is_refused() ? NULL : next_malloc(size);
}

void *calloc(size_t count, size_t size)
{
    if (!next_calloc)
        return early_block(count * size);
    return is_refused() ? NULL : next_calloc(count, size);
}

void *realloc(void *block, size_t size)
{
    return is_refused() ? NULL : next_realloc(block, size);
}
