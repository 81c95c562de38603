/* The same file written and read by plain pwrite(2) and pread(2): the nanoseconds of one append and of one read, the best of five runs. */
#define _GNU_SOURCE
#include <fcntl.h>
#include <stdint.h>
#include <stdio.h>
#include <stdlib.h>
#include <string.h>
#include <time.h>
#include <unistd.h>

static double now(void) {
    struct timespec t;
    clock_gettime(CLOCK_MONOTONIC, &t);
    return t.tv_sec * 1e9 + t.tv_nsec;
}

int main(int argc, char **argv) {
    static const int sizes[] = {100, 10000, 1000000}, counts[] = {200000, 10000, 200};
    if (argc < 2 || chdir(argv[1]) != 0)
        return 1;
    for (int k = 0; k < 3; k++) {
        char *piece = malloc(sizes[k]);
        double appended = 1e18, read = 1e18;
        memset(piece, 7, sizes[k]);
        for (int run = 0; run < 5; run++) {
            int file = open("plain.seg", O_RDWR | O_CREAT | O_EXCL, 0644);
            off_t end = 0;
            double a = now();
            for (int i = 0; i < counts[k]; i++, end += sizes[k])
                if (pwrite(file, piece, sizes[k], end) != sizes[k])
                    return 1;
            double b = now();
            for (off_t at = 0; at < end; at += sizes[k])
                if (pread(file, piece, sizes[k], at) != sizes[k])
                    return 1;
            double c = now();
            close(file);
            unlink("plain.seg");
            if ((b - a) / counts[k] < appended) appended = (b - a) / counts[k];
            if ((c - b) / counts[k] < read) read = (c - b) / counts[k];
        }
        printf("C %d %.0f %.0f\n", sizes[k], appended, read);
        free(piece);
    }
    return 0;
}
