// The floor of a group of three on this machine: programs that make the calls that the rules ask for, with no protocol between them.
//   floor member R FILE PORT      member R (0 to 2) at PORT + R: an entry is written as a slot is (four sectors at once, a sync, a sector, a sync),
//                                 at member 0 before it is sent to the others, at these before they acknowledge it; member 0 answers with the
//                                 first acknowledgement. Each 32nd entry brings a checkpoint and a superblock. What a member's outputs are is
//                                 written to standard output first. Each ends when its input does.
//   floor ask PORT COUNT          one asker with one request under way: a line for each answer, written before the next request
//   floor sync FILE COUNT         overwrites 512 bytes and syncs: prints the microseconds of each; floor direct FILE COUNT: the same past the page
//                                 cache (O_DIRECT and O_DSYNC), nothing where the file can't be opened so; both say last what processor time one took
//   floor trip PORT COUNT and floor echo PORT: a round trip of 256 bytes
#define _GNU_SOURCE
#include <arpa/inet.h>
#include <fcntl.h>
#include <poll.h>
#include <stdint.h>
#include <stdio.h>
#include <stdlib.h>
#include <string.h>
#include <sys/socket.h>
#include <time.h>
#include <unistd.h>

enum { SECTOR = 512, SECTORS = 3984, ENTRY = 384, MOST = 64, EVERY = 32, BLOCK = 8, FIRST_BLOCK = 400, COPY = 20, COPIES = 4 };

static void need(int ok, const char *what) {
    if (!ok) { perror(what); exit(1); }
}

static struct sockaddr_in at(int port) {
    struct sockaddr_in a = { .sin_family = AF_INET, .sin_port = htons(port) };
    a.sin_addr.s_addr = htonl(INADDR_LOOPBACK);
    return a;
}

static int socket_at(int port) {
    int s = socket(AF_INET, SOCK_DGRAM, 0);
    struct sockaddr_in a = at(port);
    need(s >= 0 && bind(s, (struct sockaddr *)&a, sizeof a) == 0, "bind");
    struct timeval wait = { .tv_usec = 4000 };
    need(setsockopt(s, SOL_SOCKET, SO_RCVTIMEO, &wait, sizeof wait) == 0, "timeout");
    return s;
}

static double micros(clockid_t clock) {
    struct timespec t;
    clock_gettime(clock, &t);
    return t.tv_sec * 1e6 + t.tv_nsec / 1e3;
}

static double now(void) { return micros(CLOCK_MONOTONIC); }

static int file_of(const char *name) {
    int f = open(name, O_RDWR | O_CREAT, 0600);
    char zeros[SECTOR] = { 0 };
    need(f >= 0, name);
    for (int i = 0; i < SECTORS; i++) need(pwrite(f, zeros, SECTOR, (off_t)i * SECTOR) == SECTOR, "write");
    need(fsync(f) == 0, "sync");
    return f;
}

static void write_entry(int f, uint32_t op, const char *entry) {
    char sectors[4 * SECTOR] = { 0 };
    memcpy(sectors, entry, ENTRY);
    need(pwrite(f, sectors, sizeof sectors, (off_t)(144 + 4 * (op % 64)) * SECTOR) == sizeof sectors, "write");
    need(fdatasync(f) == 0, "sync");
    need(pwrite(f, sectors, SECTOR, (off_t)(80 + op % 64) * SECTOR) == SECTOR, "write");
    need(fdatasync(f) == 0, "sync");
}

// A checkpoint of two blocks, a sync, and the superblock's copies, each with a sync.
static void checkpoint(int f) {
    static const char sectors[COPY * SECTOR];
    for (int k = 1; k >= 0; k--)
        need(pwrite(f, sectors, BLOCK * SECTOR, (off_t)(FIRST_BLOCK + k * BLOCK) * SECTOR) == BLOCK * SECTOR, "write");
    need(fdatasync(f) == 0, "sync");
    for (int k = 0; k < COPIES; k++) {
        need(pwrite(f, sectors, sizeof sectors, (off_t)k * COPY * SECTOR) == sizeof sectors, "write");
        need(fdatasync(f) == 0, "sync");
    }
}

// Lines of so many bytes, as a member's outputs have.
static void say(size_t bytes) {
    static const char lines[MOST * 4];
    need(write(1, lines, bytes) == (ssize_t)bytes, "write");
}

// A datagram: what it is ('r' a request, 'p' a prepare, 'a' an acknowledgement, 'o' an answer), its op, and the rest of an entry.
struct letter { char kind; uint32_t op; char rest[ENTRY - 8]; };

static int member(int r, const char *file, int port) {
    int f = file_of(file), s = socket_at(port + r);
    struct sockaddr_in askers[MOST], from;
    char open_ops[MOST] = { 0 };
    uint32_t op = 0;
    struct letter l;
    struct pollfd input = { .fd = 0, .events = POLLIN };
    for (unsigned turn = 0;; turn++) {
        socklen_t size = sizeof from;
        ssize_t got = recvfrom(s, &l, sizeof l, 0, (struct sockaddr *)&from, &size);
        if (got < 0) {
            if (poll(&input, 1, 0) > 0) return 0;
            continue;
        }
        if (l.kind == 'r') {
            op++;
            askers[op % MOST] = from;
            open_ops[op % MOST] = 1;
            write_entry(f, op, (char *)&l);
            l.kind = 'p', l.op = op;
            say(96);
            for (int b = 1; b < 3; b++) {
                struct sockaddr_in a = at(port + b);
                sendto(s, &l, sizeof l, 0, (struct sockaddr *)&a, sizeof a);
            }
        } else if (l.kind == 'p') {
            write_entry(f, l.op, (char *)&l);
            if (l.op > EVERY && l.op % EVERY == 1) checkpoint(f);
            l.kind = 'a';
            say(197);
            sendto(s, &l, 256, 0, (struct sockaddr *)&from, sizeof from);
        } else if (l.kind == 'a' && open_ops[l.op % MOST]) {
            open_ops[l.op % MOST] = 0;
            if (l.op % EVERY == 0) checkpoint(f);
            l.kind = 'o';
            say(189);
            sendto(s, &l, 256, 0, (struct sockaddr *)&askers[l.op % MOST], sizeof from);
        }
    }
}

static int ask(int port, long count, char kind, size_t size) {
    int s = socket_at(0);
    struct sockaddr_in a = at(port);
    struct letter l;
    memset(&l, 0, sizeof l);
    for (long i = 0; i < count; i++) {
        double before = now();
        l.kind = kind;
        sendto(s, &l, size, 0, (struct sockaddr *)&a, sizeof a);
        long waits = 0;
        while (recv(s, &l, sizeof l, 0) < 0) if (++waits > 1000) { fprintf(stderr, "no answer\n"); return 1; }
        if (kind == 'r') need(write(1, "ok\n", 3) == 3, "write");
        else printf("%.1f\n", now() - before);
    }
    return 0;
}

// Overwrites sectors of a file one after the other, and syncs each.
static int sync_each(const char *file, long count, int direct) {
    int f = file_of(file);
    char *sector;
    need(posix_memalign((void **)&sector, 4096, SECTOR) == 0, "memory");
    memset(sector, 1, SECTOR);
    if (direct) {
        close(f);
        f = open(file, O_RDWR | O_DIRECT | O_DSYNC);
        if (f < 0) return 0;
    }
    double taken = micros(CLOCK_PROCESS_CPUTIME_ID);
    for (long i = 0; i < count; i++) {
        double before = now();
        ssize_t written = pwrite(f, sector, SECTOR, (off_t)(i % SECTORS) * SECTOR);
        if (written < 0 && direct && i == 0) return 0;
        need(written == SECTOR && (direct || fdatasync(f) == 0), "sync");
        printf("%.1f\n", now() - before);
    }
    fprintf(stderr, "%.1f\n", (micros(CLOCK_PROCESS_CPUTIME_ID) - taken) / count);
    return 0;
}

int main(int argc, char **argv) {
    if (argc == 5 && !strcmp(argv[1], "member")) return member(atoi(argv[2]), argv[3], atoi(argv[4]));
    if (argc == 4 && !strcmp(argv[1], "ask")) return ask(atoi(argv[2]), atol(argv[3]), 'r', sizeof(struct letter));
    if (argc == 4 && !strcmp(argv[1], "trip")) return ask(atoi(argv[2]), atol(argv[3]), 't', 256);
    if (argc == 3 && !strcmp(argv[1], "echo")) {
        int s = socket_at(atoi(argv[2]));
        struct pollfd input = { .fd = 0, .events = POLLIN };
        struct sockaddr_in from;
        char bytes[512];
        for (;;) {
            socklen_t size = sizeof from;
            ssize_t got = recvfrom(s, bytes, sizeof bytes, 0, (struct sockaddr *)&from, &size);
            if (got >= 0) sendto(s, bytes, got, 0, (struct sockaddr *)&from, size);
            else if (poll(&input, 1, 0) > 0) return 0;
        }
    }
    if (argc == 4 && !strcmp(argv[1], "sync")) return sync_each(argv[2], atol(argv[3]), 0);
    if (argc == 4 && !strcmp(argv[1], "direct")) return sync_each(argv[2], atol(argv[3]), 1);
    fprintf(stderr, "usage: see the head of floor.c\n");
    return 2;
}
