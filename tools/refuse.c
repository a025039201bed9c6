// Preloaded into a program: request REFUSE_AT for memory, counted from 1, is refused.
// With REFUSE_LOG the number of requests so far is written to standard error at each line that the
// program writes to standard output, and at the end.
#define _GNU_SOURCE
#include <stdlib.h>
#include <sys/syscall.h>
#include <unistd.h>

extern void *__libc_malloc(size_t size);
extern void *__libc_realloc(void *block, size_t size);

static long refused_at = -1, count;

static int refuses(void) {
    if (refused_at < 0) {
        const char *at = getenv("REFUSE_AT");
        for (refused_at = 0; at && *at; at++)
            refused_at = refused_at * 10 + (*at - '0');
    }
    return ++count == refused_at;
}

void *malloc(size_t size) { return refuses() ? NULL : __libc_malloc(size); }

void *realloc(void *block, size_t size) { return refuses() ? NULL : __libc_realloc(block, size); }

static void log_count(void) {
    if (!getenv("REFUSE_LOG"))
        return;
    char text[24];
    int at = sizeof text;
    long left = count;
    text[--at] = '\n';
    do {
        text[--at] = '0' + left % 10;
        left /= 10;
    } while (left);
    syscall(SYS_write, 2, text + at, sizeof text - at);
}

ssize_t write(int fd, const void *data, size_t size) {
    if (fd == 1 && size && ((const char *)data)[size - 1] == '\n')
        log_count();
    return syscall(SYS_write, fd, data, size);
}

__attribute__((destructor)) static void log_last_count(void) { log_count(); }
