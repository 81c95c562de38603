/* Bytes in hexadecimal, as a script has them. */
#include <stddef.h>
#include <stdint.h>

static char *put_hex(char *text, const uint8_t *p, size_t n) {
    for (; n--; p++) {
        *text++ = "0123456789abcdef"[*p >> 4];
        *text++ = "0123456789abcdef"[*p & 15];
    }
    return text;
}
