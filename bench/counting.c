/* Counts the calls that ask for memory, and tells how many there were when the program ends, on the descriptor whose number KEN_TELL
 * has. Loaded before the C library (LD_PRELOAD), whose own functions do the work. */
#include <stdatomic.h>
#include <stddef.h>
#include <stdio.h>
#include <stdlib.h>
#include <sys/syscall.h>
#include <unistd.h>

extern void *__libc_malloc(size_t size);
extern void *__libc_calloc(size_t count, size_t size);
extern void *__libc_realloc(void *block, size_t size);

static atomic_ulong calls;

void *malloc(size_t size)
{
    atomic_fetch_add_explicit(&calls, 1, memory_order_relaxed);
    return __libc_malloc(size);
}

void *calloc(size_t count, size_t size)
{
    atomic_fetch_add_explicit(&calls, 1, memory_order_relaxed);
    return __libc_calloc(count, size);
}

void *realloc(void *block, size_t size)
{
    atomic_fetch_add_explicit(&calls, 1, memory_order_relaxed);
    return __libc_realloc(block, size);
}

__attribute__((destructor)) static void tell(void)
{
    const char *descriptor = getenv("KEN_TELL");
    if (descriptor)
        dprintf(atoi(descriptor), "%lu", atomic_load(&calls));
}

/* A program that ends by this call runs no destructor. */
void _exit(int status)
{
    tell();
    for (;;)
        syscall(SYS_exit_group, status);
}
