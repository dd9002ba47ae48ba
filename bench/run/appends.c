// Appends so often 64 octets and one more to a file, each with a sync: what an entry of two synced writes costs at least.
// usage: appends FILE COUNT      prints the seconds
#include <fcntl.h>
#include <stdio.h>
#include <stdlib.h>
#include <time.h>
#include <unistd.h>

static double now(void) {
    struct timespec at;
    clock_gettime(CLOCK_MONOTONIC, &at);
    return at.tv_sec + at.tv_nsec / 1e9;
}

int main(int argc, char **argv) {
    if (argc != 3) {
        return 2;
    }
    int file = open(argv[1], O_RDWR | O_CREAT | O_TRUNC, 0644);
    if (file < 0) {
        return 1;
    }
    static const char entry[64];
    static const char gate[1];
    long count = atol(argv[2]);
    double start = now();
    for (long i = 0; i < count; i++) {
        if (write(file, entry, 64) != 64 || fsync(file) != 0 || write(file, gate, 1) != 1 || fsync(file) != 0) {
            return 1;
        }
    }
    printf("%.6f\n", now() - start);
    return close(file) != 0;
}
