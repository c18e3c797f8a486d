/* Preloaded by the figures of checks/speed that count syncs, or let them take long: behind each sync of a file its
 * thread sleeps for SYNC_MICROSECONDS, and the number of syncs stands in the first eight octets of the file SYNC_TOLD,
 * which has them already. */
#define _GNU_SOURCE
#include <dlfcn.h>
#include <errno.h>
#include <fcntl.h>
#include <stdlib.h>
#include <sys/mman.h>
#include <sys/prctl.h>
#include <time.h>
#include <unistd.h>

static unsigned long here, *told = &here;
static long microseconds;

__attribute__((constructor)) static void begin(void)
{
    const char *path = getenv("SYNC_TOLD"), *longer = getenv("SYNC_MICROSECONDS");
    int file = path ? open(path, O_RDWR | O_CLOEXEC) : -1;
    void *place = file < 0 ? MAP_FAILED : mmap(NULL, sizeof here, PROT_READ | PROT_WRITE, MAP_SHARED, file, 0);
    if (file >= 0) close(file);
    if (place != MAP_FAILED) told = place;
    microseconds = longer ? atol(longer) : 0;
}

static int behind(int answer)
{
    int error = errno;
    struct timespec rest = {microseconds / 1000000, microseconds % 1000000 * 1000};
    __atomic_fetch_add(told, 1, __ATOMIC_RELAXED);
    if (microseconds > 0) {
        /* woken within a microsecond, where the kernel else takes fifty */
        prctl(PR_SET_TIMERSLACK, 1);
        while (clock_nanosleep(CLOCK_MONOTONIC, 0, &rest, &rest) == EINTR) { }
    }
    errno = error;
    return answer;
}

int fdatasync(int file)
{
    static int (*real)(int);
    if (!real) real = (int (*)(int))dlsym(RTLD_NEXT, "fdatasync");
    return behind(real(file));
}

int fsync(int file)
{
    static int (*real)(int);
    if (!real) real = (int (*)(int))dlsym(RTLD_NEXT, "fsync");
    return behind(real(file));
}

int sync_file_range(int file, off64_t from, off64_t octets, unsigned flags)
{
    static int (*real)(int, off64_t, off64_t, unsigned);
    if (!real) real = (int (*)(int, off64_t, off64_t, unsigned))dlsym(RTLD_NEXT, "sync_file_range");
    return behind(real(file, from, octets, flags));
}
