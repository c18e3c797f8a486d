/* Preloaded by checks/memory.sh: one allocation of the program is refused.
 *
 * FAULT_CALL is the number of that allocation, from 1. FAULT_TOLD is a file that is made once it was refused. */
#define _GNU_SOURCE
#include <dlfcn.h>
#include <errno.h>
#include <fcntl.h>
#include <stdlib.h>
#include <unistd.h>

static long calls, wanted = -1;

#define REAL(name) \
    static __typeof__(&name) real; \
    if (!real) real = (__typeof__(&name))dlsym(RTLD_NEXT, #name)

static int is_refused(void)
{
    if (wanted < 0) {
        const char *call = getenv("FAULT_CALL");
        wanted = call ? atol(call) : 0;
    }
    if (__atomic_add_fetch(&calls, 1, __ATOMIC_SEQ_CST) != wanted) return 0;
    const char *told = getenv("FAULT_TOLD");
    if (told) close(creat(told, 0600));
    errno = ENOMEM;
    return 1;
}

void *malloc(size_t size)
{
    REAL(malloc);
    return is_refused() ? NULL : real(size);
}

void *realloc(void *octets, size_t size)
{
    REAL(realloc);
    return is_refused() ? NULL : real(octets, size);
}

void *aligned_alloc(size_t alignment, size_t size)
{
    REAL(aligned_alloc);
    return is_refused() ? NULL : real(alignment, size);
}

int posix_memalign(void **octets, size_t alignment, size_t size)
{
    REAL(posix_memalign);
    return is_refused() ? ENOMEM : real(octets, alignment, size);
}
