// For LD_PRELOAD: allocation failure injection. The allocation of the number FAILED_ALLOCATION fails; with 0 none does,
// and it prints to standard error at the end how many there were.
#define _GNU_SOURCE
#include <dlfcn.h>
#include <errno.h>
#include <stdio.h>
#include <stdlib.h>
#include <sys/syscall.h>
#include <unistd.h>
static long which = -1, count = 0;
static void report(void) { if (which == 0) dprintf(2, "%ld\n", count); which = -1; }
__attribute__((constructor)) static void begin(void) {
    const char *n = getenv("FAILED_ALLOCATION");
    which = n ? atol(n) : 0;
}
__attribute__((destructor)) static void end(void) { report(); }
// A program that may start threads ends so, and runs no destructor.
void _exit(int status) { report(); for (;;) syscall(SYS_exit_group, status); }
// Threads count too.
static int fails(void) { return __atomic_add_fetch(&count, 1, __ATOMIC_SEQ_CST) == which ? (errno = ENOMEM) : 0; }
void *malloc(size_t n) {
    void *(*next)(size_t) = dlsym(RTLD_NEXT, "malloc");
    return fails() ? 0 : next(n);
}
void *realloc(void *p, size_t n) {
    void *(*next)(void *, size_t) = dlsym(RTLD_NEXT, "realloc");
    return fails() ? 0 : next(p, n);
}
