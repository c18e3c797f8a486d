/* Preloaded by checks/out.sh: the look-up of a host's name fails as often as CALLS_UNKNOWN says (EAI_AGAIN), then the
 * call as often as CALLS_UNREACHED says (ENETUNREACH); and the clock of an agent that calls goes CALLS_FASTER times as
 * fast, its pauses too. CALLS_TOLD is a file with a line for each look-up: the seconds since the first one, by that
 * clock. The clock is asked of the system itself, since it is needed before a library can be looked into. */
#define _GNU_SOURCE
#include <dlfcn.h>
#include <errno.h>
#include <netdb.h>
#include <stdio.h>
#include <stdlib.h>
#include <sys/socket.h>
#include <sys/syscall.h>
#include <time.h>
#include <unistd.h>

static long number_of(const char *name, long absent)
{
    const char *text = getenv(name);
    return text ? atol(text) : absent;
}

static long long nanoseconds(const struct timespec *time)
{
    return time->tv_sec * 1000000000LL + time->tv_nsec;
}

static struct timespec timespec_of(long long nanoseconds)
{
    struct timespec time = {nanoseconds / 1000000000, nanoseconds % 1000000000};
    return time;
}

int clock_gettime(clockid_t clock, struct timespec *now)
{
    static long long first;
    int status = syscall(SYS_clock_gettime, clock, now);
    if (status != 0 || clock != CLOCK_MONOTONIC) return status;
    if (!first) first = nanoseconds(now);
    *now = timespec_of(first + (nanoseconds(now) - first) * number_of("CALLS_FASTER", 1));
    return status;
}

int nanosleep(const struct timespec *pause, struct timespec *left)
{
    struct timespec shorter = timespec_of(nanoseconds(pause) / number_of("CALLS_FASTER", 1));
    return syscall(SYS_nanosleep, &shorter, left);
}

static void tell(void)
{
    static long long first;
    struct timespec now;
    const char *path = getenv("CALLS_TOLD");
    FILE *told = path ? fopen(path, "a") : NULL;
    if (!told) return;
    clock_gettime(CLOCK_MONOTONIC, &now);
    if (!first) first = nanoseconds(&now);
    fprintf(told, "%lld\n", (nanoseconds(&now) - first) / 1000000000);
    fclose(told);
}

int getaddrinfo(const char *host, const char *service, const struct addrinfo *hints, struct addrinfo **found)
{
    static long calls;
    __typeof__(&getaddrinfo) real = (__typeof__(&getaddrinfo))dlsym(RTLD_NEXT, "getaddrinfo");
    tell();
    return calls++ < number_of("CALLS_UNKNOWN", 0) ? EAI_AGAIN : real(host, service, hints, found);
}

int connect(int socket, const struct sockaddr *address, socklen_t length)
{
    static long calls;
    __typeof__(&connect) real = (__typeof__(&connect))dlsym(RTLD_NEXT, "connect");
    if (address->sa_family != AF_UNIX && calls++ < number_of("CALLS_UNREACHED", 0)) {
        errno = ENETUNREACH;
        return -1;
    }
    return real(socket, address, length);
}
