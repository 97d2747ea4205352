/* Counts how often the program asks for memory, and for how many bytes, once it has read the file last.csv to its end. Put before the program by LD_PRELOAD,
   it makes the file `counted`, and at the end writes both numbers there; nothing where last.csv wasn't read to its end. */

#define _GNU_SOURCE
#include <errno.h>
#include <stdio.h>
#include <stdlib.h>
#include <string.h>
#include <sys/syscall.h>
#include <unistd.h>

void *__libc_malloc(size_t), *__libc_calloc(size_t, size_t), *__libc_realloc(void *, size_t), *__libc_memalign(size_t, size_t);

static int counting;
static unsigned long requests, bytes;

static size_t counted(size_t size) {
    if (counting) {
        requests += 1;
        bytes += size;
    }
    return size;
}

void *malloc(size_t size) { return __libc_malloc(counted(size)); }

void *calloc(size_t count, size_t size) {
    counted(count * size);
    return __libc_calloc(count, size);
}

void *realloc(void *place, size_t size) { return __libc_realloc(place, counted(size)); }

void *aligned_alloc(size_t alignment, size_t size) { return __libc_memalign(alignment, counted(size)); }

int posix_memalign(void **place, size_t alignment, size_t size) {
    void *found = __libc_memalign(alignment, counted(size));
    if (!found) return ENOMEM;
    *place = found;
    return 0;
}

/* Whether the path of an open file ends in /last.csv. */
static int is_last(int file) {
    char link[64], path[4096];
    snprintf(link, sizeof link, "/proc/self/fd/%d", file);
    ssize_t length = readlink(link, path, sizeof path - 1);
    path[length < 0 ? 0 : length] = 0;
    char *name = strrchr(path, '/');
    return name && !strcmp(name, "/last.csv");
}

ssize_t read(int file, void *place, size_t size) {
    ssize_t got = syscall(SYS_read, file, place, size);
    if (got == 0 && is_last(file)) counting = 1;
    return got;
}

static void write_counted(const char *mode, const char *text) {
    FILE *file = fopen("counted", mode);
    if (!file) return;
    fputs(text, file);
    fclose(file);
}

__attribute__((constructor)) static void begin(void) { write_counted("a", ""); }

__attribute__((destructor)) static void end(void) {
    char text[64];
    if (!counting) return;
    snprintf(text, sizeof text, "%lu %lu\n", requests, bytes);
    write_counted("w", text);
}
