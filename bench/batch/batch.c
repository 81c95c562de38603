/* Reads a record batch of magic 2 in plain C, with the same tests: header, CRC-32C by slicing by 8, each record.
   For each number of records: the time of one read in nanoseconds, the best of nine runs. */
#include <stdint.h>
#include <stdio.h>
#include <stdlib.h>
#include <string.h>
#include <time.h>

#include "batch.h"

static int64_t big(const uint8_t *p, int n) {
    uint64_t v = p[0] & 0x80 ? ~0ull : 0;
    for (int i = 0; i < n; i++)
        v = v << 8 | p[i];
    return (int64_t)v;
}

/* A zigzag number of at most `most` groups; 0 where it is cut off or too long. */
static int varint(const uint8_t **p, const uint8_t *end, int most, int64_t *out) {
    uint64_t v = 0;
    for (int i = 0; i < most; i++) {
        if (*p == end)
            return 0;
        uint8_t b = *(*p)++;
        v |= (uint64_t)(b & 0x7f) << (7 * i);
        if (!(b & 0x80)) {
            *out = (int64_t)(v >> 1) ^ -(int64_t)(v & 1);
            return 1;
        }
    }
    return 0;
}

static int skip(const uint8_t **p, const uint8_t *end, int nullable) {
    int64_t n;
    if (!varint(p, end, 5, &n) || n < (nullable ? -1 : 0) || n > end - *p)
        return 0;
    if (n > 0)
        *p += n;
    return 1;
}

/* Whether the bytes are an accepted batch; its greatest timestamp. */
static int read_batch(const uint8_t *b, size_t len, int64_t *greatest) {
    if (len < 61 || big(b + 8, 4) < 49 || (size_t)big(b + 8, 4) + 12 != len || b[16] != 2 || len > 1048588)
        return 0;
    if (big(b + 21, 2) != 0 || (uint32_t)big(b + 17, 4) != by_8(b + 21, len - 21))
        return 0;
    int64_t count = big(b + 57, 4), base = big(b + 27, 8);
    if (count < 1 || big(b + 23, 4) != count - 1)
        return 0;
    const uint8_t *p = b + 61, *end = b + len;
    *greatest = INT64_MIN;
    for (int64_t k = 0; k < count; k++) {
        int64_t n, delta, offset, headers, time;
        if (!varint(&p, end, 5, &n) || n < 1 || n > end - p)
            return 0;
        const uint8_t *q = p + 1, *stop = p + n;
        if (!varint(&q, stop, 10, &delta) || !varint(&q, stop, 5, &offset) || offset != k)
            return 0;
        if (__builtin_add_overflow(base, delta, &time))
            return 0;
        if (time > *greatest)
            *greatest = time;
        if (!skip(&q, stop, 1) || !skip(&q, stop, 1) || !varint(&q, stop, 5, &headers) || headers < 0)
            return 0;
        for (int64_t h = 0; h < headers; h++)
            if (!skip(&q, stop, 0) || !skip(&q, stop, 1))
                return 0;
        if (q != stop)
            return 0;
        p = stop;
    }
    return p == end;
}

static int (*volatile method)(const uint8_t *, size_t, int64_t *) = read_batch;

int main(void) {
    static uint8_t batch[1 << 20];
    for (int count = 1; count <= 10000; count *= 10) {
        size_t len = put_batch(batch, count, 20);
        int reads = 20000000 / (int)len + 1;
        double best = 1e9;
        int64_t sum = 0;
        for (int i = 0; i < 9; i++) {
            struct timespec a, z;
            clock_gettime(CLOCK_MONOTONIC, &a);
            for (int k = 0; k < reads; k++) {
                int64_t greatest;
                if (!method(batch, len, &greatest))
                    return 1;
                sum += greatest;
            }
            clock_gettime(CLOCK_MONOTONIC, &z);
            double ns = ((z.tv_sec - a.tv_sec) * 1e9 + (z.tv_nsec - a.tv_nsec)) / reads;
            if (ns < best)
                best = ns;
        }
        printf("C %d %zu %.0f\n", count, len, best);
        if (sum < 0)
            return 1;
    }
    return 0;
}
