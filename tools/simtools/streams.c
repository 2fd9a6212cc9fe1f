// For LD_PRELOAD. The read of the number FAIL_READ fails, of standard input and of files whose names end with `.engineer`; and the write of
// the number FAIL_WRITE to standard output, and each later one, but with ONCE. With SHORT each moves so many bytes at most.
#define _GNU_SOURCE
#include <errno.h>
#include <stdio.h>
#include <stdlib.h>
#include <string.h>
#include <sys/syscall.h>
#include <unistd.h>
static long number(const char *name) { const char *n = getenv(name); return n ? atol(n) : 0; }
static int fails(const char *which, long *count, int is_once) {
    long first = number(which), n = __atomic_add_fetch(count, 1, __ATOMIC_SEQ_CST);
    return first && (is_once ? n == first : n >= first) ? (errno = EIO) : 0;
}
static size_t some(size_t n) { size_t most = number("SHORT"); return most && most < n ? most : n; }
static int is_given(int from) {
    char name[64], path[4096];
    snprintf(name, sizeof name, "/proc/self/fd/%d", from);
    ssize_t n = from == 0 ? 0 : readlink(name, path, sizeof path);
    return from == 0 || (n > 9 && !memcmp(path + n - 9, ".engineer", 9));
}
ssize_t read(int from, void *to, size_t n) {
    static long count;
    if (!is_given(from)) return syscall(SYS_read, from, to, n);
    return fails("FAIL_READ", &count, 1) ? -1 : syscall(SYS_read, from, to, some(n));
}
ssize_t write(int to, const void *from, size_t n) {
    static long count;
    if (to != 1) return syscall(SYS_write, to, from, n);
    return fails("FAIL_WRITE", &count, number("ONCE")) ? -1 : syscall(SYS_write, to, from, some(n));
}
