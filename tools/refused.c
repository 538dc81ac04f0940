// Refuses allocations of a program: the one with the number that REFUSED names, and with EVERY=k also each k-th after it. Writes how many
// there were, refused ones too, to the file descriptor 3.
// usage: cc -O2 -shared -fPIC -o /tmp/refused.so tools/refused.c; env REFUSED=7 EVERY=2 LD_PRELOAD=/tmp/refused.so COMMAND 3>COUNT
#include <errno.h>
#include <stdatomic.h>
#include <stdio.h>
#include <stdlib.h>
#include <sys/syscall.h>
#include <unistd.h>

static atomic_long made;
static long refused = -1;
static long every;

// the number that a variable of the environment names, or 0
static long number(const char *name)
{
    const char *word = getenv(name);
    return word ? atol(word) : 0;
}

__attribute__((constructor)) static void begin(void)
{
    every = number("EVERY");
    atomic_store(&made, 0);
    refused = number("REFUSED");
}

__attribute__((destructor)) static void end(void)
{
    dprintf(3, "%ld\n", atomic_load(&made));
}

// for a program that ends by this, without its destructors
void _exit(int status)
{
    end();
    for (;;)
        syscall(SYS_exit_group, status);
}

// whether this allocation is refused; those before the program begins are not counted
static int is_refused(void)
{
    if (refused < 0)
        return 0;
    long past = atomic_fetch_add(&made, 1) + 1 - refused;
    if (refused == 0 || past < 0 || (past > 0 && (every == 0 || past % every != 0)))
        return 0;
    errno = ENOMEM;
    return 1;
}

void *malloc(size_t size)
{
    extern void *__libc_malloc(size_t);
    return is_refused() ? NULL : __libc_malloc(size);
}

void *calloc(size_t count, size_t size)
{
    extern void *__libc_calloc(size_t, size_t);
    return is_refused() ? NULL : __libc_calloc(count, size);
}

void *realloc(void *old, size_t size)
{
    extern void *__libc_realloc(void *, size_t);
    return is_refused() ? NULL : __libc_realloc(old, size);
}

void *aligned_alloc(size_t alignment, size_t size)
{
    extern void *__libc_memalign(size_t, size_t);
    return is_refused() ? NULL : __libc_memalign(alignment, size);
}

int posix_memalign(void **block, size_t alignment, size_t size)
{
    extern void *__libc_memalign(size_t, size_t);
    *block = is_refused() ? NULL : __libc_memalign(alignment, size);
    return *block ? 0 : ENOMEM;
}
