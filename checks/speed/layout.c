/* layout FILE APPENDS HOW: as a journal appends, so often: a record of 1,024 octets, a sync, one octet on the gate
 * before it, a sync. HOW says how the file was laid out ahead of its end: `grows`, not at all; `room`, by
 * posix_fallocate; `zeros`, by zeros that were written and synced. It prints the microseconds of an append, without the
 * laying out. */
#define _GNU_SOURCE
#include <fcntl.h>
#include <stdio.h>
#include <stdlib.h>
#include <string.h>
#include <time.h>
#include <unistd.h>

enum { RECORD = 1024 };

static double now(void)
{
    struct timespec at;
    clock_gettime(CLOCK_MONOTONIC, &at);
    return (double)at.tv_sec * 1e6 + (double)at.tv_nsec / 1e3;
}

static void put(int file, const void *octets, size_t count, off_t at)
{
    if (pwrite(file, octets, count, at) != (ssize_t)count || fdatasync(file) != 0) exit(1);
}

static void lay_out(int file, off_t octets, const char *how)
{
    static const char zeros[1 << 16];
    if (strcmp(how, "room") == 0 && posix_fallocate(file, 0, octets) != 0) exit(1);
    if (strcmp(how, "zeros") == 0) {
        for (off_t at = 0; at < octets; at += (off_t)sizeof zeros)
            if (pwrite(file, zeros, sizeof zeros, at) != (ssize_t)sizeof zeros) exit(1);
    }
    if (fsync(file) != 0) exit(1);
}

int main(int count, char **words)
{
    char record[RECORD];
    if (count != 4) return 2;
    int file = open(words[1], O_RDWR | O_CREAT | O_TRUNC, 0600);
    long appends = atol(words[2]);
    if (file < 0) return 1;
    memset(record, 7, sizeof record);
    lay_out(file, (appends + 1) * RECORD, words[3]);
    put(file, "", 1, 0);
    double start = now();
    for (long it = 0; it < appends; ++it) {
        put(file, record, sizeof record, it * RECORD + 1);
        put(file, "\1", 1, it * RECORD);
    }
    printf("%.1f\n", (now() - start) / (double)appends);
    return 0;
}
