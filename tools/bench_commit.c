/* Appends so many records to a file as docs/STORE.md says, and nothing else: each is written, synced, opened and synced.

       bench_commit FILE COUNT SIZE

   FILE is made anew. SIZE is that of a record's body. The seconds that the records took are written. */

#include <fcntl.h>
#include <stdint.h>
#include <stdio.h>
#include <stdlib.h>
#include <string.h>
#include <time.h>
#include <unistd.h>

static void check(int is_done, const char *what) {
    if (!is_done) {
        perror(what);
        exit(1);
    }
}

static void put(int file, const void *bytes, size_t size, off_t at) {
    check(pwrite(file, bytes, size, at) == (ssize_t)size, "pwrite");
    check(fsync(file) == 0, "fsync");
}

static double now(void) {
    struct timespec time;
    clock_gettime(CLOCK_MONOTONIC, &time);
    return time.tv_sec + time.tv_nsec / 1e9;
}

int main(int count, char **words) {
    check(count == 4, "bench_commit FILE COUNT SIZE");
    long records = atol(words[2]);
    uint32_t size = (uint32_t)atol(words[3]);
    unsigned char *framed = calloc(1, size + 5);
    int file = open(words[1], O_RDWR | O_CREAT | O_TRUNC, 0666);
    check(framed && file >= 0, words[1]);
    for (int byte = 0; byte < 4; byte++) framed[byte] = (unsigned char)(size >> (24 - 8 * byte));
    memset(framed + 4, 'x', size);
    put(file, "\1ZNSTORE1A\0\0\0\0\0\0\0", 17, 0);
    off_t gate = 16;
    double began = now();
    for (long record = 0; record < records; record++) {
        put(file, framed, size + 5, gate + 1);
        put(file, "\1", 1, gate);
        gate += size + 5;
    }
    printf("%.9f\n", now() - began);
    return 0;
}
