/* The rule of asymmetric extremum in plain C, over standard input in pieces of 65,536 bytes. Each chunk's bytes are copied
   into a block of their own, as the crate does. Prints what it found, and the rate of cutting alone. */
#include <stdint.h>
#include <stdio.h>
#include <stdlib.h>
#include <string.h>
#include <time.h>
#include <unistd.h>

enum { WINDOW = 4096, MOST = 65536, PIECE = 65536 };

static uint8_t *chunk;
static size_t len, peak_at;
static uint64_t last, peak;
static unsigned long long chunks, all;

static void feed(const uint8_t *piece, size_t n) {
    while (n > 0) {
        if (!chunk) {
            chunk = malloc(MOST);
            len = peak_at = 0;
            last = peak = 0;
        }
        size_t i = 0, room = MOST - len;
        if (room > n) room = n;
        int ends = 0;
        while (i < room) {
            last = last << 8 | piece[i++];
            size_t at = len + i;
            if (at == 1 || last > peak) {
                peak = last;
                peak_at = at;
            } else if (at == peak_at + WINDOW) {
                ends = 1;
                break;
            }
        }
        memcpy(chunk + len, piece, i);
        len += i;
        piece += i;
        n -= i;
        if (ends || len == MOST) {
            chunks++;
            free(chunk);
            chunk = NULL;
        }
    }
}

int main(void) {
    static uint8_t piece[PIECE];
    double took = 0;
    ssize_t n;
    while ((n = read(0, piece, PIECE)) > 0) {
        struct timespec a, b;
        clock_gettime(CLOCK_MONOTONIC, &a);
        feed(piece, (size_t)n);
        clock_gettime(CLOCK_MONOTONIC, &b);
        took += (b.tv_sec - a.tv_sec) + (b.tv_nsec - a.tv_nsec) / 1e9;
        all += (unsigned long long)n;
    }
    printf("C: %llu bytes, %llu chunks, %.0f MB/s\n", all, chunks, all / took / 1e6);
    return 0;
}
