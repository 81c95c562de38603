/* Writes a batch of one record of 100 bytes again and again at the end of a new file, each followed by fdatasync. It prints the median and
   the 99th percentile of what one takes, in microseconds.

       disk PATH SECONDS */
#include <fcntl.h>
#include <stdio.h>
#include <stdlib.h>
#include <time.h>
#include <unistd.h>

#include "batch.h"

enum { SAMPLES = 1 << 20 };

static double now(void) {
    struct timespec t;
    clock_gettime(CLOCK_MONOTONIC, &t);
    return t.tv_sec + t.tv_nsec * 1e-9;
}

static int by_size(const void *a, const void *b) {
    float x = *(const float *)a, y = *(const float *)b;
    return (x > y) - (x < y);
}

int main(int count, char **words) {
    static float took[SAMPLES];
    static uint8_t batch[1 << 10];
    size_t size = put_batch(batch, 1, 100), n = 0;
    int fd = count == 3 ? open(words[1], O_RDWR | O_CREAT | O_EXCL, 0600) : -1;
    if (fd < 0)
        return 1;
    for (double end = now() + atof(words[2]); n < SAMPLES && now() < end; n++) {
        double start = now();
        if (pwrite(fd, batch, size, size * n) != (ssize_t)size || fdatasync(fd))
            return 1;
        took[n] = (now() - start) * 1e6;
    }
    unlink(words[1]);
    qsort(took, n, sizeof *took, by_size);
    printf("%.1f %.1f\n", took[n / 2], took[n - 1 - n / 100]);
    return 0;
}
