/* Refuses one call that asks for memory: that whose number KEN_REFUSE has, counted from 1. It says so on the descriptor whose number
 * KEN_TELL has. Loaded before the C library (LD_PRELOAD), whose own functions do the rest. */
#include <errno.h>
#include <stddef.h>
#include <stdlib.h>
#include <unistd.h>

extern void *__libc_malloc(size_t size);
extern void *__libc_realloc(void *block, size_t size);

static unsigned long calls, refused;

static unsigned long number_in(const char *name)
{
    const char *word = getenv(name);
    return word ? strtoul(word, NULL, 10) : 0;
}

static int refuses(void)
{
    if (calls == 0)
        refused = number_in("KEN_REFUSE");
    if (++calls != refused)
        return 0;
    errno = write((int)number_in("KEN_TELL"), "", 1) == 1 ? ENOMEM : EIO;
    return 1;
}

void *malloc(size_t size)
{
    return refuses() ? NULL : __libc_malloc(size);
}

void *realloc(void *block, size_t size)
{
    return refuses() ? NULL : __libc_realloc(block, size);
}
