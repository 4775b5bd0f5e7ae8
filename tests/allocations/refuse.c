/* Put before the C library by the dynamic linker: refuses the allocation whose number REFUSE says, counted from 1. Once it
   has, it says so with one byte to the file of the number TELL, if there is one. */
#include <stdatomic.h>
#include <stddef.h>
#include <stdlib.h>
#include <unistd.h>

extern void *__libc_malloc(size_t);
extern void *__libc_realloc(void *, size_t);

static atomic_long left;

__attribute__((constructor)) static void begin(void)
{
    const char *number = getenv("REFUSE");
    atomic_store(&left, number == NULL ? 0 : atol(number));
}

static int refused(void)
{
    if (atomic_fetch_sub(&left, 1) != 1)
        return 0;
    const char *tell = getenv("TELL");
    if (tell != NULL && write(atoi(tell), "r", 1) != 1)
        abort();
    return 1;
}

void *malloc(size_t size)
{
    return refused() ? NULL : __libc_malloc(size);
}

void *realloc(void *old, size_t size)
{
    return refused() ? NULL : __libc_realloc(old, size);
}
