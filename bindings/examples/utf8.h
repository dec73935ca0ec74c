/* What text is, in C and C++. */
#ifndef UTF8_H
#define UTF8_H

#include <stdbool.h>
#include <stddef.h>
#include <stdint.h>

/* Whether the bytes are UTF-8 (RFC 3629, 4). */
static inline bool is_utf8(const uint8_t *bytes, size_t len) {
    for (size_t at = 0; at < len; at++) {
        uint8_t first = bytes[at];
        if ((first >= 0x80 && first < 0xC2) || first > 0xF4) {
            return false;
        }
        size_t more = (first >= 0xC2) + (first >= 0xE0) + (first >= 0xF0);
        uint8_t least = first == 0xE0 ? 0xA0 : first == 0xF0 ? 0x90 : 0x80; /* of the second byte */
        uint8_t most = first == 0xED ? 0x9F : first == 0xF4 ? 0x8F : 0xBF;
        for (; more != 0; more--, least = 0x80, most = 0xBF) {
            if (++at == len || bytes[at] < least || bytes[at] > most) {
                return false;
            }
        }
    }
    return true;
}

#endif
