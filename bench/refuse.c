/* Loaded before the C library, this has the allocation with the number in the environment's REFUSED fail, and where a + follows the
   number all later ones too. A block that is to be made shorter is no allocation: that is refused always, and the block stays as it
   is. At the end it prints on standard error how many allocations there were. */
#define _GNU_SOURCE
#include <dlfcn.h>
#include <stdint.h>
#include <stdio.h>
#include <stdlib.h>

static long asked = 0;
static long refused = -1;
static int later_too = 0;

/* How long the block at each place is, by open addressing. A block that is freed leaves its entry to the next one there. */
#define PLACES (1 << 20)
static struct { void *block; size_t size; } lengths[PLACES];

static size_t *length_of(void *block)
{
    size_t i = ((uintptr_t)block >> 4) * 0x9e3779b97f4a7c15u >> 44;
    while (lengths[i].block && lengths[i].block != block)
        i = (i + 1) % PLACES;
    lengths[i].block = block;
    return &lengths[i].size;
}

static void *noted(void *block, size_t size)
{
    if (block)
        *length_of(block) = size;
    return block;
}

static int is_refused(void)
{
    if (refused < 0) {
        const char *number = getenv("REFUSED");
        char *end = NULL;
        refused = number ? strtol(number, &end, 10) : 0;
        later_too = end && *end == '+';
    }
    asked++;
    return asked == refused || (later_too && asked > refused);
}

void *malloc(size_t size)
{
    static void *(*next)(size_t);
    if (!next)
        next = dlsym(RTLD_NEXT, "malloc");
    return is_refused() ? NULL : noted(next(size), size);
}

void *realloc(void *block, size_t size)
{
    static void *(*next)(void *, size_t);
    if (!next)
        next = dlsym(RTLD_NEXT, "realloc");
    if (block && size && size < *length_of(block))
        return NULL;
    return is_refused() ? NULL : noted(next(block, size), size);
}

static void __attribute__((destructor)) tell(void)
{
    fprintf(stderr, "%ld\n", asked);
}
