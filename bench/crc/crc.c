/* CRC-32C by slicing by 8, the yardstick (and by 16, for comparison): the best of nine runs at each size. */
#include <stdint.h>
#include <stdio.h>
#include <stdlib.h>
#include <string.h>
#include <time.h>

#include "crc32c.h"

static uint32_t (*volatile method)(const uint8_t *, size_t);

static void run(const char *name, uint32_t (*f)(const uint8_t *, size_t), const uint8_t *p, size_t total, size_t size) {
    double best = 1e9;
    uint32_t sum = 0;
    method = f;
    for (int i = 0; i < 9; i++) {
        struct timespec a, b;
        clock_gettime(CLOCK_MONOTONIC, &a);
        sum = 0;
        for (size_t at = 0; at + size <= total; at += size)
            sum ^= method(p + at, size);
        clock_gettime(CLOCK_MONOTONIC, &b);
        double s = (b.tv_sec - a.tv_sec) + (b.tv_nsec - a.tv_nsec) * 1e-9;
        if (s < best)
            best = s;
    }
    printf("%s %zu %08x %.0f\n", name, size, sum, best * 1e6);
}

int main(void) {
    size_t total = 100000000;
    size_t sizes[] = {100, 1000, 20000, 100000000};
    uint8_t *p = malloc(total);
    uint32_t seed = 1;
    for (size_t i = 0; i < total; i++) {
        seed = seed * 1664525u + 1013904223u;
        p[i] = seed >> 24;
    }
    for (int k = 0; k < 4; k++) {
        run("C-by-8", by_8, p, total, sizes[k]);
        run("C-by-16", by_16, p, total, sizes[k]);
    }
    free(p);
    return 0;
}
