// The calls of a migration on a data file, with no thought behind them: prints the microseconds that they took.
//   moves FILE      512 sectors from 1,424 on, 64 at once, and a sync; then four times the 20 sectors of a copy of the superblock and a sync
#include <fcntl.h>
#include <stdio.h>
#include <stdlib.h>
#include <string.h>
#include <time.h>
#include <unistd.h>

enum { SECTOR = 512, MOST = 64, FIRST = 1424, MOVED = 512, COPIES = 4, COPY = 20 };

static void need(int ok, const char *what) {
    if (!ok) { perror(what); exit(1); }
}

static double now(void) {
    struct timespec t;
    clock_gettime(CLOCK_MONOTONIC, &t);
    return t.tv_sec * 1e6 + t.tv_nsec / 1e3;
}

static void write_sectors(int file, int first, int count) {
    char run[MOST * SECTOR];
    for (int i = first; i < first + count; i += MOST) {
        int size = (first + count - i < MOST ? first + count - i : MOST) * SECTOR;
        memset(run, i, size);
        need(pwrite(file, run, size, (off_t)i * SECTOR) == size, "pwrite");
    }
}

int main(int argc, char **argv) {
    need(argc == 2, "FILE");
    int file = open(argv[1], O_RDWR);
    need(file >= 0, "open");
    double before = now();
    write_sectors(file, FIRST, MOVED);
    need(fdatasync(file) == 0, "sync");
    for (int copy = 0; copy < COPIES; copy++) {
        write_sectors(file, copy * COPY, COPY);
        need(fdatasync(file) == 0, "sync");
    }
    printf("%.0f\n", now() - before);
    return 0;
}
