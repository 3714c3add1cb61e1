// Prints the microseconds between the lines of its input: those that a client took from one answer to the next. With an argument each is printed
// as soon as it is known, so that who watches sees how far the client is.
#include <stdio.h>
#include <time.h>
#include <unistd.h>

int main(int argc, char **argv) {
    (void)argv;
    if (argc > 1) setvbuf(stdout, NULL, _IOLBF, 0);
    char bytes[4096];
    double last = 0;
    ssize_t got;
    while ((got = read(0, bytes, sizeof bytes)) > 0) {
        struct timespec t;
        clock_gettime(CLOCK_MONOTONIC, &t);
        double now = t.tv_sec * 1e6 + t.tv_nsec / 1e3;
        for (ssize_t i = 0; i < got; i++)
            if (bytes[i] == '\n') {
                if (last) printf("%.1f\n", now - last);
                last = now;
            }
    }
    return 0;
}
