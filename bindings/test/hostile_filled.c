/* rtpw_put_element, rtpw_add_element, rtpw_change_form, rtpw_compact and rtpw_put_block where a block is full of elements,
 * and a buffer mostly has room for more. */
#include "hostile.h"

#include "walk_growing.h"

#define MOST 3000

/* A length of an element's data: mostly short, at times about as long as what is copied at once, up to the longest. Those
 * that are narrow fit into either form. */
static size_t filled_len(bool is_narrow) {
    uint64_t x = random_u64();
    if (is_narrow) {
        return x % 4 == 0 ? 16 : 1 + x / 4 % 16;
    }
    switch (x % 8) {
    case 0:
    case 1: return x / 16 % 256;
    case 2: return 255 - x / 16 % 4;
    case 3: return (16u << x / 16 % 4) - 2 + x / 64 % 4;
    default: return x / 16 % 20;
    }
}

/* Elements up to so many bytes, with zeros between them and behind them, at times with what is no element at the end: how
 * many words they take. */
static size_t filled_body(uint8_t *body, size_t most, int form) {
    uint64_t y = random_u64();
    size_t at = 0, count = random_below(y % 4 == 0 ? 40 : 8);
    bool is_narrow = form == 1 || y / 4 % 2 == 0;
    unsigned ids = form == 1 || y / 8 % 4 != 0 ? 14 : 255;
    most -= most % 4;
    for (size_t i = 0; i < count; i++) {
        uint64_t x = random_u64();
        size_t len = filled_len(is_narrow), zeros = x % 8 != 0 ? 0 : x / 8 % 8 == 0 ? x / 64 % 70 : x / 64 % 5;
        if (at + 2 + len + zeros > most) {
            break;
        }
        unsigned id = x / 8192 % 64 == 0 ? 0 : 1 + (unsigned)(x >> 32) % ids;
        body[at++] = (uint8_t)(form == 1 ? id * 16 + len - 1 : id);
        if (form == 2) {
            body[at++] = (uint8_t)len;
        }
        fill(body + at, len);
        memset(body + at + len, 0, zeros);
        at += len + zeros;
    }
    size_t end = (at + 3) / 4 * 4 + (y / 32 % 4 == 0 ? 4 * (y / 128 % 4) : 0);
    end = end < most ? end : most;
    memset(body + at, 0, end - at);
    if (y / 1024 % 16 == 0) {
        fill(body + at, end - at);
    }
    return end / 4;
}

size_t filled_packet(uint8_t *bytes, size_t most) {
    uint64_t x = random_u64();
    size_t sources = x % 4 == 0 ? x / 4 % 16 : 0, at = 12 + 4 * sources, payload = x / 64 % 24;
    int form = x / 2048 % 2 == 0 ? 1 : 2;
    fill(bytes, at);
    bytes[0] = (uint8_t)(0x80 | (x / 4096 % 8 == 0 ? 0 : 0x10) | sources);
    if ((bytes[0] & 0x10) != 0) {
        size_t words = filled_body(bytes + at + 4, most - at - 4 - payload, form);
        bytes[at] = form == 1 ? 0xBE : 0x10;
        bytes[at + 1] = (uint8_t)(form == 1 ? 0xDE : x / 65536 % 16);
        bytes[at + 2] = (uint8_t)(words / 256);
        bytes[at + 3] = (uint8_t)words;
        at += 4 + 4 * words;
    }
    fill(bytes + at, payload);
    return at + payload;
}

static size_t put_or_add(uint8_t *buf, size_t size, size_t *len, size_t *wanted, uint64_t x) {
    static memory data_memory;
    static uint8_t same[256];
    if (data_memory.size == 0) {
        data_memory = memory_of(256);
    }
    walked it = walk(before, *len);
    found last;
    uint8_t id = (uint8_t)(x % 8 == 0 ? x >> 8 : 1 + (x >> 8) % 14), allowed = (uint8_t)(x / 65536 % 8 == 0 ? 1 : x / 524288 % 3);
    size_t data_len = filled_len(x / 8 % 2 == 0);
    if (x / 16 % 4 == 0 && walk_last(before + it.body_at, it.body_len, it.form, id, &last)) {
        data_len = last.data_len;
    }
    uint8_t *data = block_in(&data_memory, data_len);
    fill(data, data_len);
    if (data_len > 0) {
        memcpy(same, data, data_len);
    }
    bool is_put = x / 128 % 4 != 0;
    int32_t status = is_put ? put(size, wanted, id, same, data_len, allowed) : add(size, wanted, id, same, data_len, allowed);
    CHECK((is_put ? rtpw_put_element(buf, size, len, id, data, data_len, allowed)
                  : rtpw_add_element(buf, size, len, id, data, data_len, allowed)) == status);
    return size;
}

static size_t other_change(uint8_t *buf, size_t size, size_t *len, size_t *wanted, uint64_t x) {
    size_t was = *len;
    if (x % 3 == 0) {
        CHECK(rtpw_compact(buf, size, len) == compact(size, wanted));
        return *wanted < was ? *wanted : size;
    }
    uint8_t form = (uint8_t)(1 + x / 4 % 2);
    if (x % 3 == 1) {
        CHECK(rtpw_change_form(buf, size, len, form) == change_form(size, wanted, form));
        return size;
    }
    static uint8_t body[300];
    size_t body_len = 4 * random_below(sizeof body / 4 + 1);
    uint16_t profile = (uint16_t)(form == 1 ? 0xBEDE : x >> 48);
    fill(body, body_len);
    CHECK(rtpw_put_block(buf, size, len, profile, body, body_len) == put_block(size, wanted, profile, body, body_len));
    return size;
}

/* One change of a packet, as each of two writers makes it. */
static void change(void) {
    static memory buffers, lengths;
    if (buffers.size == 0) {
        buffers = memory_of(2 * MOST);
        lengths = memory_of(sizeof(size_t));
    }
    uint64_t x = random_u64();
    size_t was = filled_packet(before, MOST), size = was + (x % 4 == 0 ? x / 4 % 12 : x / 4 % MOST), wanted = was;
    fill(before + was, size - was);
    uint8_t *buf = block_in(&buffers, size);
    memcpy(buf, before, size);
    memcpy(expected, before, size);
    size_t *len = block_in(&lengths, sizeof *len);
    *len = was;
    uint64_t y = random_u64();
    size_t compared = x / 65536 % 3 == 0 ? other_change(buf, size, len, &wanted, y) : put_or_add(buf, size, len, &wanted, y);
    CHECK(*len == wanted);
    CHECK(memcmp(buf, expected, compared) == 0);
}

void filled_round(void) {
    for (int i = 0; i < 16; i++) {
        change();
    }
}
