// Stands before the system's calls of one process (LD_PRELOAD), counts them by kind, and has some of them fail as the environment says:
//   FAULT_COUNTS=FILE   where the counts are kept, a number of 8 bytes for each kind, and behind them how many calls were disturbed
//   FAULT_CALL=KIND     which calls are disturbed; FAULT_AT=K the K-th of them, from 1, and FAULT_TIMES=N so many from there on (1)
//   FAULT_WAY=WAY       what such a call does: an error by its name; short: less than was asked; late: what was asked, and it says EIO; torn: a part of what
//                       was asked, and it says EIO; cut: what wasn't synced is undone, as where the power fails, and the process is gone
//   FAULT_LAX=1         each sync says that it was done, and does nothing
//   FAULT_KEEPS=1       the system never forgets what it has of a file in memory, though it is told to
//   CLOCK_AT=K CLOCK_BY=SECONDS CLOCK_RATE=X   from its K-th look on the monotonic clock shows so many seconds more, and goes X times as fast
#define _GNU_SOURCE
#include <dlfcn.h>
#include <errno.h>
#include <fcntl.h>
#include <stdarg.h>
#include <stdlib.h>
#include <string.h>
#include <sys/epoll.h>
#include <sys/file.h>
#include <sys/mman.h>
#include <sys/socket.h>
#include <sys/stat.h>
#include <time.h>
#include <unistd.h>

// The order of the counts; faulting/shim.py has the same.
enum { OPEN, STAT, LOCK, WRITE, SYNC, LENGTH, READ, SAY, SOCKET, BIND, CONNECT, ACCEPT, WATCH, POLL, SEND, RECEIVE, CLOCK, KINDS };
static const char *const kinds[] = {"open", "stat", "lock", "write", "sync", "length", "read", "say", "socket", "bind", "connect", "accept", "watch", "poll", "send", "receive", "clock"};

enum { GOES = 0, SHORT = -1, LATE = -2, TORN = -3, CUT = -4, SKIP = -5 };
static const struct { const char *name; int way; } ways[] = {
    {"EIO", EIO}, {"ENOSPC", ENOSPC}, {"EINTR", EINTR}, {"EAGAIN", EAGAIN}, {"EMFILE", EMFILE}, {"ENOMEM", ENOMEM}, {"ENOBUFS", ENOBUFS}, {"ECONNREFUSED", ECONNREFUSED},
    {"ECONNABORTED", ECONNABORTED}, {"ENOLCK", ENOLCK}, {"EADDRINUSE", EADDRINUSE}, {"short", SHORT}, {"late", LATE}, {"torn", TORN}, {"cut", CUT}, {"skip", SKIP}};

static long nowhere[KINDS + 1], *counts = nowhere, at, times;
static int call = -1, way, is_lax, keeps;

static long number(const char *name, long otherwise) {
    const char *text = getenv(name);
    return text ? atol(text) : otherwise;
}

static void *next(const char *name) { return dlsym(RTLD_NEXT, name); }
#define REAL(result, name, ...) static result (*real)(__VA_ARGS__); if (!real) real = next(#name)

__attribute__((constructor)) static void begin(void) {
    const char *file = getenv("FAULT_COUNTS"), *named = getenv("FAULT_CALL"), *what = getenv("FAULT_WAY");
    for (int i = 0; named && i < KINDS; i++) if (!strcmp(named, kinds[i])) call = i;
    for (size_t i = 0; what && i < sizeof ways / sizeof *ways; i++) if (!strcmp(what, ways[i].name)) way = ways[i].way;
    at = number("FAULT_AT", 0), times = number("FAULT_TIMES", 1), is_lax = number("FAULT_LAX", 0), keeps = number("FAULT_KEEPS", 0);
    if (!file) return;
    int (*opens)(const char *, int, ...) = next("open");
    int fd = opens(file, O_RDWR | O_CLOEXEC);
    if (fd < 0) return;
    void *kept = mmap(NULL, sizeof nowhere, PROT_READ | PROT_WRITE, MAP_SHARED, fd, 0);
    if (kept != MAP_FAILED) counts = kept;
    close(fd);
}

// What was written since the last sync: what stood there before. It is undone from the last to the first.
struct undo { struct undo *before; int fd; off_t at; size_t size; char old[]; };
static struct undo *undone;

static void keep_old(int fd, size_t size, off_t place) {
    if (way != CUT) return;
    ssize_t (*reads)(int, void *, size_t, off_t) = next("pread");
    struct undo *kept = calloc(1, sizeof *kept + size);
    if (!kept || reads(fd, kept->old, size, place) < 0) _exit(99);
    *kept = (struct undo){undone, fd, place, size};
    undone = kept;
}

static void forget_old(void) {
    for (struct undo *kept; (kept = undone); free(kept)) undone = kept->before;
}

static void cut(void) {
    ssize_t (*writes)(int, const void *, size_t, off_t) = next("pwrite");
    for (; undone; undone = undone->before) if (writes(undone->fd, undone->old, undone->size, undone->at) < 0) _exit(99);
    _exit(137);
}

// What is to become of this call.
static int fate(int kind) {
    long count = ++counts[kind];
    if (kind != call || !at || count < at || count - at >= times) return GOES;
    counts[KINDS]++;
    if (way == CUT) cut();
    return way;
}

// A call that says that it failed, having done what it was asked or not.
#define FAILS(did, why) do { if (why == LATE) { did; errno = EIO; } else errno = why; return -1; } while (0)

int open(const char *path, int flags, ...) {
    REAL(int, open, const char *, int, ...);
    va_list more;
    va_start(more, flags);
    mode_t mode = flags & (O_CREAT | O_TMPFILE) ? va_arg(more, mode_t) : 0;
    va_end(more);
    int why = fate(OPEN);
    if (why > 0) { errno = why; return -1; }
    int fd = real(path, flags, mode);
    if (why == LATE && fd >= 0) { close(fd); errno = EIO; return -1; }
    return fd;
}

int statx(int folder, const char *restrict path, int flags, unsigned mask, struct statx *restrict to) {
    REAL(int, statx, int, const char *restrict, int, unsigned, struct statx *restrict);
    int why = fate(STAT);
    if (why) FAILS(real(folder, path, flags, mask, to), why);
    return real(folder, path, flags, mask, to);
}

int flock(int fd, int what) {
    REAL(int, flock, int, int);
    int why = fate(LOCK);
    if (why) FAILS(real(fd, what), why);
    return real(fd, what);
}

ssize_t pwrite(int fd, const void *from, size_t size, off_t place) {
    REAL(ssize_t, pwrite, int, const void *, size_t, off_t);
    int why = fate(WRITE);
    keep_old(fd, size, place);
    if (why == SHORT) return real(fd, from, size > 1 ? size / 2 : size, place);
    if (why == TORN) FAILS((void)!real(fd, from, size / 2, place), EIO);
    if (why == SKIP) return size;
    if (why) FAILS((void)!real(fd, from, size, place), why);
    return real(fd, from, size, place);
}

static int sync_by(int (*real)(int), int fd) {
    int why = fate(SYNC);
    if (is_lax) return 0;
    if (why) FAILS(real(fd), why);
    int code = real(fd);
    if (!code) forget_old();
    return code;
}

int fsync(int fd) { REAL(int, fsync, int); return sync_by(real, fd); }
int fdatasync(int fd) { REAL(int, fdatasync, int); return sync_by(real, fd); }

int posix_fadvise(int fd, off_t place, off_t size, int advice) {
    REAL(int, posix_fadvise, int, off_t, off_t, int);
    return keeps ? 0 : real(fd, place, size, advice);
}

int ftruncate(int fd, off_t size) {
    REAL(int, ftruncate, int, off_t);
    int why = fate(LENGTH);
    if (why) FAILS((void)!real(fd, size), why);
    return real(fd, size);
}

ssize_t pread(int fd, void *to, size_t size, off_t place) {
    REAL(ssize_t, pread, int, void *, size_t, off_t);
    int why = fate(READ);
    if (why == SHORT) return real(fd, to, size > 1 ? size / 2 : size, place);
    if (why) FAILS((void)!real(fd, to, size, place), why);
    return real(fd, to, size, place);
}

ssize_t write(int fd, const void *from, size_t size) {
    REAL(ssize_t, write, int, const void *, size_t);
    int why = fd == 1 ? fate(SAY) : GOES;
    if (why == SHORT) return real(fd, from, size > 1 ? size / 2 : size);
    if (why) FAILS((void)!real(fd, from, size), why);
    return real(fd, from, size);
}

int socket(int family, int type, int protocol) {
    REAL(int, socket, int, int, int);
    int why = fate(SOCKET);
    if (why > 0) { errno = why; return -1; }
    return real(family, type, protocol);
}

int bind(int fd, const struct sockaddr *address, socklen_t size) {
    REAL(int, bind, int, const struct sockaddr *, socklen_t);
    int why = fate(BIND);
    if (why) FAILS(real(fd, address, size), why);
    return real(fd, address, size);
}

int connect(int fd, const struct sockaddr *address, socklen_t size) {
    REAL(int, connect, int, const struct sockaddr *, socklen_t);
    int why = fate(CONNECT);
    if (why) FAILS(real(fd, address, size), why);
    return real(fd, address, size);
}

int accept4(int fd, struct sockaddr *restrict from, socklen_t *restrict size, int flags) {
    REAL(int, accept4, int, struct sockaddr *restrict, socklen_t *restrict, int);
    int why = fate(ACCEPT);
    if (why > 0) { errno = why; return -1; }
    int made = real(fd, from, size, flags);
    if (why == LATE && made >= 0) { close(made); errno = EIO; return -1; }
    return made;
}

int epoll_create1(int flags) {
    REAL(int, epoll_create1, int);
    int why = fate(WATCH);
    if (why > 0) { errno = why; return -1; }
    return real(flags);
}

int epoll_ctl(int fd, int what, int of, struct epoll_event *event) {
    REAL(int, epoll_ctl, int, int, int, struct epoll_event *);
    int why = fate(WATCH);
    if (why) FAILS(real(fd, what, of, event), why);
    return real(fd, what, of, event);
}

int epoll_wait(int fd, struct epoll_event *events, int most, int wait) {
    REAL(int, epoll_wait, int, struct epoll_event *, int, int);
    int why = fate(POLL);
    if (why) FAILS(real(fd, events, most, wait), why);
    return real(fd, events, most, wait);
}

ssize_t sendto(int fd, const void *from, size_t size, int flags, const struct sockaddr *to, socklen_t length) {
    REAL(ssize_t, sendto, int, const void *, size_t, int, const struct sockaddr *, socklen_t);
    int why = fate(SEND);
    if (why) FAILS((void)!real(fd, from, size, flags, to, length), why);
    return real(fd, from, size, flags, to, length);
}

ssize_t send(int fd, const void *from, size_t size, int flags) {
    REAL(ssize_t, send, int, const void *, size_t, int);
    int why = fate(SEND);
    if (why == SHORT) return real(fd, from, size > 1 ? size / 2 : size, flags);
    if (why) FAILS((void)!real(fd, from, size, flags), why);
    return real(fd, from, size, flags);
}

ssize_t recvfrom(int fd, void *restrict to, size_t size, int flags, struct sockaddr *restrict from, socklen_t *restrict length) {
    REAL(ssize_t, recvfrom, int, void *restrict, size_t, int, struct sockaddr *restrict, socklen_t *restrict);
    int why = fate(RECEIVE);
    if (why == SHORT) { ssize_t got = real(fd, to, size, flags, from, length); return got > 1 ? got / 2 : got; }
    if (why) FAILS((void)!real(fd, to, size, flags, from, length), why);
    return real(fd, to, size, flags, from, length);
}

ssize_t recv(int fd, void *to, size_t size, int flags) {
    REAL(ssize_t, recv, int, void *, size_t, int);
    int why = fate(RECEIVE);
    if (why == SHORT) return real(fd, to, size > 64 ? 64 : size, flags);
    if (why) FAILS((void)!real(fd, to, size, flags), why);
    return real(fd, to, size, flags);
}

int clock_gettime(clockid_t which, struct timespec *to) {
    REAL(int, clock_gettime, clockid_t, struct timespec *);
    static long from;
    static double by, rate, first;
    if (which != CLOCK_MONOTONIC) return real(which, to);
    int why = fate(CLOCK);
    if (why) FAILS((void)real(which, to), why);
    int code = real(which, to);
    if (!from) {
        const char *text = getenv("CLOCK_BY"), *times_text = getenv("CLOCK_RATE");
        from = number("CLOCK_AT", -1), by = text ? atof(text) : 0, rate = times_text ? atof(times_text) : 1;
    }
    if (from < 0 || counts[CLOCK] < from) return code;
    double now = to->tv_sec + to->tv_nsec / 1e9;
    if (first == 0) first = now;
    now = first + by + (now - first) * rate;
    if (now < 0) now = 0;
    to->tv_sec = now, to->tv_nsec = (now - to->tv_sec) * 1e9;
    return code;
}
