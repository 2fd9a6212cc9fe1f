// For LD_PRELOAD: allocation failure injection by lines. Lines of standard input, a file, are tried by copies of the
// program, and it goes on as if it had never seen them. The program itself never reads a line `refuse N`: a copy goes
// on with the lines behind it, up to a line `done`, where its input ends. While it is at the first of them its
// allocation of the number N fails; with 0 none does. The program then prints to standard error at what byte the copy's
// output began and ended, how many allocations that line made, whether one failed, and the copy's wait status, and goes
// on behind `done`.
#define _GNU_SOURCE
#include <dlfcn.h>
#include <errno.h>
#include <stdio.h>
#include <stdlib.h>
#include <string.h>
#include <sys/mman.h>
#include <sys/stat.h>
#include <sys/syscall.h>
#include <sys/wait.h>
#include <unistd.h>
// Seen by the program and its copies alike; `given` bytes of the text are read.
static struct { long count; int failed, ended; size_t given; } *shared;
static void *(*next_malloc)(size_t), *(*next_realloc)(void *, size_t);
static long which;
static int is_copy, is_first;
static const char *text, *line;
static size_t length, at, end;

__attribute__((constructor)) static void begin(void) {
    struct stat file;
    if (fstat(0, &file) == 0) length = file.st_size;
    text = mmap(0, length, PROT_READ, MAP_PRIVATE, 0, 0);
    shared = mmap(0, sizeof *shared, PROT_READ | PROT_WRITE, MAP_SHARED | MAP_ANONYMOUS, -1, 0);
}
static void next_line(void) {
    line = text + shared->given;
    const char *last = memchr(line, '\n', length - shared->given);
    at = 0;
    end = last ? last + 1 - line : text + length - line;
    shared->given += end;
}
static int is_done(void) { return end == 0 || (end == 5 && !memcmp(line, "done\n", 5)); }
static void try(void) {
    long first = lseek(1, 0, SEEK_CUR);
    int status = 0;
    shared->count = shared->failed = shared->ended = 0;
    which = strtol(line + 7, 0, 10);
    pid_t copy = fork();
    if (copy == 0) { is_copy = is_first = 1; next_line(); return; }
    waitpid(copy, &status, 0);
    while (!shared->ended) { next_line(); shared->ended = is_done(); }
    dprintf(2, "%ld %ld %ld %d %d\n", first, (long)lseek(1, 0, SEEK_CUR), shared->count, shared->failed, status);
    next_line();
}
ssize_t read(int from, void *to, size_t most) {
    if (from != 0) return syscall(SYS_read, from, to, most);
    if (at == end && !(is_copy && shared->ended)) {
        is_first = 0;
        next_line();
        while (!is_copy && end > 7 && !memcmp(line, "refuse ", 7)) try();
        if (is_copy && is_done()) shared->ended = 1, end = 0;
    }
    if (most > end - at) most = end - at;
    memcpy(to, line + at, most);
    at += most;
    return most;
}
// Threads count too.
static int fails(void) {
    if (!is_first || __atomic_add_fetch(&shared->count, 1, __ATOMIC_SEQ_CST) != which) return 0;
    return shared->failed = 1, errno = ENOMEM;
}
void *malloc(size_t n) {
    if (!next_malloc) next_malloc = dlsym(RTLD_NEXT, "malloc");
    return fails() ? 0 : next_malloc(n);
}
void *realloc(void *p, size_t n) {
    if (!next_realloc) next_realloc = dlsym(RTLD_NEXT, "realloc");
    return fails() ? 0 : next_realloc(p, n);
}
