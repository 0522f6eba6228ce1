/* Preloaded before the C library (LD_PRELOAD), this library makes one call fail: the one that REFUSED names, as `allocation 7`, `read 2` or `write 1`, which
   is the seventh allocation, the second read, the first write. It then prints `refused` on standard error. */
#define _GNU_SOURCE
#include <errno.h>
#include <stdatomic.h>
#include <stdio.h>
#include <stdlib.h>
#include <string.h>
#include <sys/syscall.h>
#include <unistd.h>

extern void *__libc_malloc(size_t size);
extern void *__libc_realloc(void *old, size_t size);

static char kind[16];
static long number;
static atomic_long calls;

__attribute__((constructor)) static void begin(void) {
    const char *refused = getenv("REFUSED");
    if (refused && sscanf(refused, "%15s %ld", kind, &number) != 2)
        _exit(120);
}

static int refuses(const char *call) {
    static const char line[] = "refused\n";
    if (strcmp(call, kind) || atomic_fetch_add(&calls, 1) + 1 != number)
        return 0;
    syscall(SYS_write, 2, line, sizeof line - 1);
    return 1;
}

void *malloc(size_t size) {
    if (!refuses("allocation"))
        return __libc_malloc(size);
    errno = ENOMEM;
    return NULL;
}

void *realloc(void *old, size_t size) {
    if (!refuses("allocation"))
        return __libc_realloc(old, size);
    errno = ENOMEM;
    return NULL;
}

ssize_t read(int file, void *bytes, size_t count) {
    if (!refuses("read"))
        return syscall(SYS_read, file, bytes, count);
    errno = EIO;
    return -1;
}

ssize_t write(int file, const void *bytes, size_t count) {
    if (!refuses("write"))
        return syscall(SYS_write, file, bytes, count);
    errno = EIO;
    return -1;
}
