/* A record batch of magic 2, as Kafka's message format spells it. */
#include <stdint.h>
#include <string.h>

#include "crc32c.h"

static uint8_t *put(uint8_t *p, int64_t v, int n) {
    for (int i = n; i--; v >>= 8)
        p[i] = v;
    return p + n;
}

static uint8_t *put_bytes(uint8_t *p, const void *bytes, size_t n) {
    memcpy(p, bytes, n);
    return p + n;
}

static uint8_t *put_varint(uint8_t *p, int64_t value) {
    uint64_t v = (uint64_t)value << 1 ^ (uint64_t)(value >> 63);
    for (; v > 127; v >>= 7)
        *p++ = v | 0x80;
    *p++ = v;
    return p;
}

/* A batch of records without key, of that many bytes each, one a millisecond. */
static size_t put_batch(uint8_t *b, int records, int bytes) {
    memset(b, 0, 61);
    uint8_t *p = b + 61;
    for (int k = 0; k < records; k++) {
        uint8_t head[32], *q = head;
        *q++ = 0;
        q = put_varint(q, k);
        q = put_varint(q, k);
        q = put_varint(q, -1);
        q = put_varint(q, bytes);
        p = put_varint(p, q - head + bytes + 1);
        p = put_bytes(p, head, q - head);
        memset(p, 'a' + k % 26, bytes);
        p = put_varint(p + bytes, 0);
    }
    size_t size = p - b;
    put(b + 8, size - 12, 4);
    b[16] = 2;
    put(b + 23, records - 1, 4);
    put(b + 35, records - 1, 8);
    put(b + 43, -1, 8);
    put(b + 51, -1, 2);
    put(b + 53, -1, 4);
    put(b + 57, records, 4);
    put(b + 17, by_8(b + 21, size - 21), 4);
    return size;
}
