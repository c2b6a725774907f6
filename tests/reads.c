/* A read(2) and a write(2) of its own, put before the C library's by LD_PRELOAD, for tests/files. A read moves at
 * most MOST bytes, and fails with EIO at the FAIL_AT-th read of the file whose path ends with FAIL_FILE. A write
 * moves at most MOST_WRITTEN bytes, as into a pipe that is nearly full. */
#define _GNU_SOURCE
#include <errno.h>
#include <stdio.h>
#include <stdlib.h>
#include <string.h>
#include <sys/syscall.h>
#include <unistd.h>

static int named(int fd, const char *name)
{
    char link[64], path[4096];
    ssize_t n;
    size_t k = strlen(name);
    snprintf(link, sizeof link, "/proc/self/fd/%d", fd);
    n = readlink(link, path, sizeof path);
    return n >= (ssize_t)k && memcmp(path + n - k, name, k) == 0;
}

ssize_t read(int fd, void *buffer, size_t size)
{
    static long reads;
    const char *most = getenv("MOST"), *at = getenv("FAIL_AT"), *name = getenv("FAIL_FILE");
    if (at && name && named(fd, name) && ++reads == atol(at)) {
        errno = EIO;
        return -1;
    }
    if (most && (size_t)atol(most) < size)
        size = (size_t)atol(most);
    return syscall(SYS_read, fd, buffer, size);
}

ssize_t write(int fd, const void *buffer, size_t size)
{
    const char *most = getenv("MOST_WRITTEN");
    if (most && (size_t)atol(most) < size)
        size = (size_t)atol(most);
    return syscall(SYS_write, fd, buffer, size);
}
