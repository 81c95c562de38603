/* CRC-32C by slicing by 8 and by 16, over the tables that crc/tables.py writes. */
#include <stdint.h>
#include <string.h>

#include "tables.h"

static uint32_t tail(uint32_t crc, const uint8_t *p, size_t n) {
    while (n--)
        crc = crc >> 8 ^ TABLES[0][(crc ^ *p++) & 0xff];
    return ~crc;
}

static uint32_t by_8(const uint8_t *p, size_t n) {
    uint32_t crc = ~0u;
    for (; n >= 8; p += 8, n -= 8) {
        uint32_t low, high;
        memcpy(&low, p, 4);
        memcpy(&high, p + 4, 4);
        low ^= crc;
        crc = TABLES[7][low & 0xff] ^ TABLES[6][low >> 8 & 0xff] ^ TABLES[5][low >> 16 & 0xff] ^ TABLES[4][low >> 24]
            ^ TABLES[3][high & 0xff] ^ TABLES[2][high >> 8 & 0xff] ^ TABLES[1][high >> 16 & 0xff] ^ TABLES[0][high >> 24];
    }
    return tail(crc, p, n);
}

static uint32_t by_16(const uint8_t *p, size_t n) {
    uint32_t crc = ~0u;
    for (; n >= 16; p += 16, n -= 16) {
        uint32_t a, b, c, d;
        memcpy(&a, p, 4);
        memcpy(&b, p + 4, 4);
        memcpy(&c, p + 8, 4);
        memcpy(&d, p + 12, 4);
        a ^= crc;
        crc = TABLES[15][a & 0xff] ^ TABLES[14][a >> 8 & 0xff] ^ TABLES[13][a >> 16 & 0xff] ^ TABLES[12][a >> 24]
            ^ TABLES[11][b & 0xff] ^ TABLES[10][b >> 8 & 0xff] ^ TABLES[9][b >> 16 & 0xff] ^ TABLES[8][b >> 24]
            ^ TABLES[7][c & 0xff] ^ TABLES[6][c >> 8 & 0xff] ^ TABLES[5][c >> 16 & 0xff] ^ TABLES[4][c >> 24]
            ^ TABLES[3][d & 0xff] ^ TABLES[2][d >> 8 & 0xff] ^ TABLES[1][d >> 16 & 0xff] ^ TABLES[0][d >> 24];
    }
    return tail(crc, p, n);
}
