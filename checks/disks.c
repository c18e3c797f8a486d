/* Preloaded by `checks/peer.sh disks`: one call on the file mta.spool fails, or finds the file shorter than it was.
 *
 * FAULT_CALL is the number of that call, from 1, among the sizes, reads, writes, cuts and syncs of the file. FAULT_HOW
 * says what it does: `fails` (EIO), `full` (ENOSPC), `half` (a write puts half of its octets, and the call behind it
 * fails), or a number, the octets to which the file is cut before the call is made. FAULT_TOLD is a file that says
 * how many calls there were so far. FAULT_SYNC is the path of a file: the first sync once it is there fails (EIO), and
 * takes it away. */
#define _GNU_SOURCE
#include <dlfcn.h>
#include <errno.h>
#include <fcntl.h>
#include <stdio.h>
#include <stdlib.h>
#include <string.h>
#include <sys/stat.h>
#include <unistd.h>

static long calls, wanted = -1;
static const char *how;
static int next_fails;

#define REAL(name) \
    static __typeof__(&name) real; \
    if (!real) real = (__typeof__(&name))dlsym(RTLD_NEXT, #name)

static int is_spool(int file)
{
    char link[64], path[4096];
    snprintf(link, sizeof link, "/proc/self/fd/%d", file);
    ssize_t length = readlink(link, path, sizeof path);
    return length > 10 && memcmp(path + length - 10, "/mta.spool", 10) == 0;
}

static void tell(void)
{
    const char *path = getenv("FAULT_TOLD");
    FILE *told = path ? fopen(path, "w") : NULL;
    if (!told) return;
    fprintf(told, "%ld\n", calls);
    fclose(told);
}

/* Whether this call on the file fails: -1, with the error; 1 where it is to do half of what it does; else 0. */
static int fails(int file, int is_write)
{
    if (!is_spool(file)) return 0;
    if (wanted < 0) {
        const char *call = getenv("FAULT_CALL");
        wanted = call ? atol(call) : 0;
        how = getenv("FAULT_HOW");
    }
    if (next_fails) {
        next_fails = 0;
        errno = ENOSPC;
        return -1;
    }
    ++calls;
    tell();
    if (calls != wanted || !how) return 0;
    if (how[0] >= '0' && how[0] <= '9') {
        REAL(ftruncate);
        if (real(file, atol(how)) != 0) abort();
        return 0;
    }
    if (is_write && strcmp(how, "half") == 0) {
        next_fails = 1;
        return 1;
    }
    errno = strcmp(how, "fails") == 0 ? EIO : ENOSPC;
    return -1;
}

static size_t half_of(size_t count, int failing)
{
    return failing == 1 && count > 1 ? count / 2 : count;
}

ssize_t pwrite(int file, const void *octets, size_t count, off_t at)
{
    REAL(pwrite);
    int failing = fails(file, 1);
    return failing < 0 ? -1 : real(file, octets, half_of(count, failing), at);
}

ssize_t pwrite64(int file, const void *octets, size_t count, off64_t at)
{
    REAL(pwrite64);
    int failing = fails(file, 1);
    return failing < 0 ? -1 : real(file, octets, half_of(count, failing), at);
}

ssize_t pread(int file, void *octets, size_t count, off_t at)
{
    REAL(pread);
    return fails(file, 0) < 0 ? -1 : real(file, octets, count, at);
}

ssize_t pread64(int file, void *octets, size_t count, off64_t at)
{
    REAL(pread64);
    return fails(file, 0) < 0 ? -1 : real(file, octets, count, at);
}

/* Whether this sync of the file was asked to fail. */
static int is_asked(int file)
{
    const char *path = getenv("FAULT_SYNC");
    if (!path || !is_spool(file) || unlink(path) != 0) return 0;
    errno = EIO;
    return 1;
}

int fdatasync(int file)
{
    REAL(fdatasync);
    return is_asked(file) || fails(file, 0) < 0 ? -1 : real(file);
}

int fsync(int file)
{
    REAL(fsync);
    return fails(file, 0) < 0 ? -1 : real(file);
}

int ftruncate(int file, off_t size)
{
    REAL(ftruncate);
    return fails(file, 0) < 0 ? -1 : real(file, size);
}

int ftruncate64(int file, off64_t size)
{
    REAL(ftruncate64);
    return fails(file, 0) < 0 ? -1 : real(file, size);
}

int statx(int file, const char *path, int flags, unsigned mask, struct statx *found)
{
    REAL(statx);
    return fails(file, 0) < 0 ? -1 : real(file, path, flags, mask, found);
}
