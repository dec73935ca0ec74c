/* rtpw_values_read of texts as long as an element can be, most of which are letters: with a character of several bytes at
 * most, or a byte that is none, mostly beside the end of what is looked at at once. */
#include "hostile.h"

#include "walk_values.h"

/* Where one thing is put into a text: often at the end of 8, 16, 32 or 64 bytes. */
static size_t place_in(size_t len) {
    uint64_t x = random_u64();
    size_t at = x % 4 == 0 ? x / 4 % 256 : (8u << x / 4 % 4) * (x / 16 % 5) + x / 128 % 4 - 1;
    return at % len;
}

static void random_letters(uint8_t *text, size_t len) {
    static const char *const others[] = {
        "\x80", "\xFF", "\xC2\x80", "\xDF\xBF", "\xC1\xBF", "\xE0\xA0\x80", "\xEF\xBF\xBF", "\xED\x9F\xBF", "\xED\xA0\x80",
        "\xE0\x9F\xBF", "\xF0\x90\x80\x80", "\xF4\x8F\xBF\xBF", "\xF0\x8F\xBF\xBF", "\xF4\x90\x80\x80", "\xC2", "\xE2\x82",
        "\xF1\x80\x80", "\xF1\x80", "\xF5\x80\x80\x80", "\xC3\x28", "\xE2\x28\xA1", "\xE2\x82\x28", "\xF0\x90\x28\xBC",
    };
    for (size_t i = 0; i < len; i++) {
        text[i] = (uint8_t)(random_u64() % 16 == 0 ? random_u64() % 128 : 'a' + random_u64() % 26);
    }
    for (uint64_t count = len == 0 ? 0 : random_u64() % 4; count > 0; count--) {
        const char *it = others[random_below(sizeof others / sizeof *others)];
        for (size_t at = place_in(len); *it != '\0' && at < len; at++) {
            text[at] = (uint8_t)*it++;
        }
    }
}

/* A text that lies anywhere in a block. */
static void long_text(const rtpw_map *map) {
    static memory bodies;
    static uint8_t copy[512];
    if (bodies.size == 0) {
        bodies = memory_of(512);
    }
    uint64_t x = random_u64();
    size_t text_len = x % 4 == 0 ? x / 4 % 20 : x / 4 % 256, zeros = x / 1024 % 20, len = zeros + 2 + text_len;
    memset(copy, 0, zeros);
    copy[zeros] = (uint8_t)(1 + x / 65536 % 3);
    copy[zeros + 1] = (uint8_t)text_len;
    random_letters(copy + zeros + 2, text_len);
    uint8_t *body = block_in(&bodies, len);
    memcpy(body, copy, len);
    rtpw_values values, wanted;
    rtpw_layers layers;
    CHECK(rtpw_values_read(body, len, RTPW_TWO_BYTE_FORM, map, &values) == RTPW_OK);
    walk_values(copy, len, 2, map, &wanted, &layers);
    CHECK(same_values(&values, &wanted));
}

void texts_round(void) {
    static rtpw_map map;
    map.kind[1] = RTPW_KIND_MID;
    map.kind[2] = RTPW_KIND_RID;
    map.kind[3] = RTPW_KIND_REPAIRED_RID;
    for (int i = 0; i < 16; i++) {
        long_text(&map);
    }
}
