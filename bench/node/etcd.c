// One client of etcd over its own protocol (gRPC over HTTP/2, RFC 9113), with one put under way: prints the microseconds of each.
//   etcd PORT COUNT CLIENT      puts of 100 bytes at ten keys of this client
#include <arpa/inet.h>
#include <netinet/tcp.h>
#include <stdint.h>
#include <stdio.h>
#include <stdlib.h>
#include <string.h>
#include <sys/socket.h>
#include <time.h>
#include <unistd.h>

enum { DATA = 0, HEADERS = 1, RESET = 3, SETTINGS = 4, PING = 6, GONE = 7, WINDOW = 8, END_STREAM = 1, ACK = 1, END_HEADERS = 4, VALUE = 100 };

static int s;
static unsigned char room[1 << 16];

static void need(int ok, const char *what) {
    if (!ok) { fprintf(stderr, "etcd: %s\n", what); exit(1); }
}

static double now(void) {
    struct timespec t;
    clock_gettime(CLOCK_MONOTONIC, &t);
    return t.tv_sec * 1e6 + t.tv_nsec / 1e3;
}

static void send_all(const unsigned char *bytes, size_t size) {
    while (size) {
        ssize_t sent = write(s, bytes, size);
        need(sent > 0, "write");
        bytes += sent, size -= sent;
    }
}

static void read_all(unsigned char *bytes, size_t size) {
    while (size) {
        ssize_t got = read(s, bytes, size);
        need(got > 0, "read");
        bytes += got, size -= got;
    }
}

static size_t put32(unsigned char *to, uint32_t x) {
    for (int i = 0; i < 4; i++) to[i] = x >> (24 - 8 * i);
    return 4;
}

static size_t frame(unsigned char *to, int kind, int flags, uint32_t stream, const void *body, size_t size) {
    to[0] = size >> 16, to[1] = size >> 8, to[2] = size, to[3] = kind, to[4] = flags;
    put32(to + 5, stream);
    memcpy(to + 9, body, size);
    return 9 + size;
}

static size_t text(unsigned char *to, const char *what) {
    to[0] = strlen(what);
    memcpy(to + 1, what, to[0]);
    return 1 + to[0];
}

// The headers of a put, each a literal that no table keeps (RFC 7541).
static size_t headers(unsigned char *to) {
    size_t n = 0;
    to[n++] = 0x83, to[n++] = 0x86;
    to[n++] = 0x04, n += text(to + n, "/etcdserverpb.KV/Put");
    to[n++] = 0x01, n += text(to + n, "127.0.0.1");
    to[n++] = 0x0f, to[n++] = 0x10, n += text(to + n, "application/grpc");
    to[n++] = 0x00, n += text(to + n, "te"), n += text(to + n, "trailers");
    return n;
}

// A request: the key is field 1, the value field 2.
static size_t request(unsigned char *to, int client, long i) {
    char key[32];
    int length = snprintf(key, sizeof key, "c%dk%ld", client, i % 10);
    size_t size = 2 + length + 2 + VALUE, n = 0;
    to[n++] = 0, n += put32(to + n, size);
    to[n++] = 0x0a, to[n++] = length, memcpy(to + n, key, length), n += length;
    to[n++] = 0x12, to[n++] = VALUE, memset(to + n, 'v', VALUE), n += VALUE;
    return n;
}

// Reads frames to the end of a stream, and answers what has to be.
static void answer(uint32_t stream) {
    static uint32_t taken;
    unsigned char head[9], back[32], four[4];
    for (int has_data = 0;;) {
        read_all(head, 9);
        size_t size = head[0] << 16 | head[1] << 8 | head[2];
        need(size <= sizeof room, "a frame that is too long");
        read_all(room, size);
        uint32_t of = (uint32_t)head[5] << 24 | head[6] << 16 | head[7] << 8 | head[8];
        if (head[3] == SETTINGS && !(head[4] & ACK)) send_all(back, frame(back, SETTINGS, ACK, 0, "", 0));
        if (head[3] == PING && !(head[4] & ACK)) send_all(back, frame(back, PING, ACK, 0, room, 8));
        need(head[3] != RESET && head[3] != GONE, "the connection is gone");
        if (head[3] == DATA) has_data = 1, taken += size;
        if (taken > 16384) send_all(back, frame(back, WINDOW, 0, 0, four, put32(four, taken))), taken = 0;
        if (of == stream && head[4] & END_STREAM && (head[3] == HEADERS || head[3] == DATA)) {
            need(has_data, "a put was refused");
            return;
        }
    }
}

int main(int argc, char **argv) {
    if (argc != 4) { fprintf(stderr, "usage: etcd PORT COUNT CLIENT\n"); return 2; }
    struct sockaddr_in a = { .sin_family = AF_INET, .sin_port = htons(atoi(argv[1])) };
    a.sin_addr.s_addr = htonl(INADDR_LOOPBACK);
    s = socket(AF_INET, SOCK_STREAM, 0);
    need(s >= 0 && connect(s, (struct sockaddr *)&a, sizeof a) == 0, "connect");
    int one = 1;
    setsockopt(s, IPPROTO_TCP, TCP_NODELAY, &one, sizeof one);
    unsigned char out[1024], body[512];
    const char *preface = "PRI * HTTP/2.0\r\n\r\nSM\r\n\r\n";
    memcpy(out, preface, 24);
    send_all(out, 24 + frame(out + 24, SETTINGS, 0, 0, "", 0));
    for (long i = 0; i < atol(argv[2]); i++) {
        uint32_t stream = 2 * i + 1;
        double before = now();
        size_t n = frame(out, HEADERS, END_HEADERS, stream, body, headers(body));
        n += frame(out + n, DATA, END_STREAM, stream, body, request(body, atoi(argv[3]), i));
        send_all(out, n);
        answer(stream);
        printf("%.1f\n", now() - before);
    }
    return 0;
}
