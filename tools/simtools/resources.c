// For LD_PRELOAD. It counts what a run takes, and writes the counts at its end to the file that RESOURCES names.
// Each byte of the hash keys is KEYS, and there are four processors, whatever the host has: equal runs take the same.
#define _GNU_SOURCE
#include <dlfcn.h>
#include <errno.h>
#include <fcntl.h>
#include <malloc.h>
#include <pthread.h>
#include <sched.h>
#include <stdarg.h>
#include <stdio.h>
#include <stdlib.h>
#include <string.h>
#include <sys/syscall.h>
#include <unistd.h>
enum { PROCESSORS = 4 };
static long allocations, bytes, live, peak, reads, writes, opens, threads;
static void *(*next_malloc)(size_t), *(*next_realloc)(void *, size_t);
static void (*next_free)(void *);

__attribute__((constructor)) static void begin(void) {
    next_malloc = dlsym(RTLD_NEXT, "malloc");
    next_realloc = dlsym(RTLD_NEXT, "realloc");
    next_free = dlsym(RTLD_NEXT, "free");
}
static void add(long *count, long more) { __atomic_fetch_add(count, more, __ATOMIC_RELAXED); }
static void keep(long more) {
    long is = __atomic_add_fetch(&live, more, __ATOMIC_RELAXED), was = __atomic_load_n(&peak, __ATOMIC_RELAXED);
    while (is > was && !__atomic_compare_exchange_n(&peak, &was, is, 1, __ATOMIC_RELAXED, __ATOMIC_RELAXED));
}
static void tell(void) {
    const char *name = getenv("RESOURCES");
    char text[400];
    int file = name ? syscall(SYS_openat, AT_FDCWD, name, O_WRONLY | O_CREAT | O_TRUNC, 0600) : -1;
    int length = snprintf(text, sizeof text,
                          "allocations %ld\nbytes %ld\npeak %ld\nreads %ld\nwrites %ld\nopens %ld\nthreads %ld\n",
                          allocations, bytes, peak, reads, writes, opens, threads);
    if (file >= 0) syscall(SYS_write, file, text, length);
}
__attribute__((destructor)) static void end(void) { tell(); }
// A program that may start threads ends so, and runs no destructor.
void _exit(int status) { tell(); for (;;) syscall(SYS_exit_group, status); }

void *malloc(size_t n) {
    if (!next_malloc) begin();
    void *made = next_malloc(n);
    if (made) add(&allocations, 1), add(&bytes, n), keep(malloc_usable_size(made));
    return made;
}
void *realloc(void *old, size_t n) {
    if (!next_realloc) begin();
    long was = old ? malloc_usable_size(old) : 0;
    void *made = next_realloc(old, n);
    if (made) add(&allocations, 1), add(&bytes, n), keep((long)malloc_usable_size(made) - was);
    return made;
}
void free(void *old) {
    if (!next_free) begin();
    if (old) keep(-(long)malloc_usable_size(old));
    next_free(old);
}
ssize_t read(int from, void *to, size_t most) { add(&reads, 1); return syscall(SYS_read, from, to, most); }
ssize_t write(int to, const void *from, size_t count) { add(&writes, 1); return syscall(SYS_write, to, from, count); }
int open(const char *name, int flags, ...) {
    va_list more;
    va_start(more, flags);
    int mode = va_arg(more, int);
    va_end(more);
    add(&opens, 1);
    if (!strncmp(name, "/sys/", 5) || !strncmp(name, "/proc/", 6)) return errno = ENOENT, -1;
    return syscall(SYS_openat, AT_FDCWD, name, flags, mode);
}
int pthread_create(pthread_t *made, const pthread_attr_t *how, void *(*body)(void *), void *given) {
    int (*next)(pthread_t *, const pthread_attr_t *, void *(*)(void *), void *) = dlsym(RTLD_NEXT, "pthread_create");
    add(&threads, 1);
    return next(made, how, body, given);
}
int getentropy(void *to, size_t count) {
    const char *keys = getenv("KEYS");
    memset(to, keys ? atoi(keys) : 1, count);
    return 0;
}
long sysconf(int name) {
    long (*next)(int) = dlsym(RTLD_NEXT, "sysconf");
    return name == _SC_NPROCESSORS_ONLN || name == _SC_NPROCESSORS_CONF ? PROCESSORS : next(name);
}
int sched_getaffinity(pid_t whose, size_t size, cpu_set_t *set) {
    memset(set, 0, size);
    for (int n = 0; n < PROCESSORS; n++) CPU_SET_S(n, size, set);
    return whose < 0 ? -1 : 0;
}
