// Loaded before a program (LD_PRELOAD): once that is over, the microseconds from its first write at a place of a file to the end of its last
// sync of data, and how many of these calls it made, stand in a line at the end of the file that SPAN names.
#define _GNU_SOURCE
#include <dlfcn.h>
#include <stdio.h>
#include <stdlib.h>
#include <sys/types.h>
#include <time.h>

static double first, last;
static int calls;

static double now(void) {
    struct timespec t;
    clock_gettime(CLOCK_MONOTONIC, &t);
    return t.tv_sec * 1e6 + t.tv_nsec / 1e3;
}

ssize_t pwrite(int file, const void *bytes, size_t count, off_t at) {
    static ssize_t (*real)(int, const void *, size_t, off_t);
    if (!real) real = dlsym(RTLD_NEXT, "pwrite");
    if (!calls++) first = now();
    return real(file, bytes, count, at);
}

int fdatasync(int file) {
    static int (*real)(int);
    if (!real) real = dlsym(RTLD_NEXT, "fdatasync");
    int result = real(file);
    calls++;
    last = now();
    return result;
}

__attribute__((destructor)) static void tell(void) {
    const char *name = getenv("SPAN");
    FILE *to = name ? fopen(name, "a") : NULL;
    if (to) fprintf(to, "%.0f %d\n", last - first, calls);
}
