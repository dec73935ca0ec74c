/* rtpw_put_element, rtpw_add_element, rtpw_compact, rtpw_change_form, rtpw_remove_block, rtpw_put_block */
#include "hostile.h"

#include "walk_growing.h"

/* The buffer of this round, the packet in it, and its length before the call. */
static uint8_t *buf;
static size_t size, *len, was;

/* The call returned the status that was wanted, with this length, and all bytes are as they have to be. */
static void expect(int32_t status, int32_t wanted, size_t wanted_len) {
    CHECK(status == wanted);
    CHECK(*len == wanted_len);
    CHECK(memcmp(buf, expected, size) == 0);
}

static void compact_packet(void) {
    size_t wanted = was;
    CHECK(compact(size, &wanted) == rtpw_compact(buf, size, len));
    CHECK(*len == wanted);
    CHECK(memcmp(buf, expected, wanted < was ? wanted : size) == 0);
    CHECK(was > size || memcmp(buf + was, before + was, size - was) == 0);
}

static void put_element(uint64_t x) {
    static memory data_memory;
    static uint8_t data_before[300];
    if (data_memory.size == 0) {
        data_memory = memory_of(300);
    }
    uint8_t id = random_id(), allowed = (uint8_t)(x / 512 % 32 == 0 ? x >> 32 : x / 16384 % 3);
    size_t data_len = x / 65536 % 16 == 0 ? random_below(300) : random_below(20), wanted = was;
    found last;
    walked it = was > size ? no_packet(1) : walk(before, was);
    if (it.cause == 0 && x / 1048576 % 2 == 0 && walk_last(before + it.body_at, it.body_len, it.form, id, &last)) {
        data_len = last.data_len; /* as many as it has */
    }
    uint8_t *data = block_in(&data_memory, data_len);
    fill(data, data_len);
    memcpy(data_before, data, data_len);
    if (x / 2097152 % 2 == 0) {
        int32_t status = put(size, &wanted, id, data_before, data_len, allowed);
        expect(rtpw_put_element(buf, size, len, id, data, data_len, allowed), status, wanted);
    } else {
        int32_t status = add(size, &wanted, id, data_before, data_len, allowed);
        expect(rtpw_add_element(buf, size, len, id, data, data_len, allowed), status, wanted);
    }
    CHECK(memcmp(data, data_before, data_len) == 0);
}

static void replace_block(uint64_t x) {
    static const uint16_t profiles[] = {0xBEDE, 0x1000, 0x100F, 0xABAC, 0x0FFF, 0x1010, 0xBEDF, 0};
    static memory bodies;
    static uint8_t body_before[LONGEST];
    if (bodies.size == 0) {
        bodies = memory_of(LONGEST);
    }
    uint16_t profile = x / 512 % 2 == 0 ? (uint16_t)(x >> 48) : profiles[x / 1024 % 8];
    size_t body_len = x / 8192 % 4 == 0 ? random_below(40) : 4 * random_below(20), wanted = was;
    if (x / 65536 % 1024 == 0) {
        body_len = 262132 + random_below(17); /* the longest */
    }
    uint8_t *body = block_in(&bodies, body_len);
    fill(body, body_len);
    memcpy(body_before, body, body_len);
    int32_t status = put_block(size, &wanted, profile, body_before, body_len);
    expect(rtpw_put_block(buf, size, len, profile, body, body_len), status, wanted);
    CHECK(memcmp(body, body_before, body_len) == 0);
}

void growing_round(void) {
    static memory buffers, lengths;
    if (buffers.size == 0) {
        buffers = memory_of(LONGEST);
        lengths = memory_of(sizeof(size_t));
    }
    size = random_len();
    uint64_t x = random_u64();
    size_t room = x % 4 == 0 ? random_below(300) : x % 4 == 1 ? random_below(8) : 0;
    size_t packet_len = room < size ? size - room : size;
    buf = block_in(&buffers, size);
    fill(buf, size);
    random_packet(buf, packet_len);
    memcpy(before, buf, size);
    memcpy(expected, buf, size);
    len = block_in(&lengths, sizeof *len);
    *len = x / 4 % 32 == 0 ? (size_t)random_u64() : packet_len;
    was = *len;
    size_t wanted = was;
    uint8_t form = (uint8_t)(x / 512 % 16 == 0 ? x >> 32 : 1 + x / 8192 % 2);
    int32_t status;
    if (x / 128 % 8 == 0) {
        compact_packet();
    } else if (x / 128 % 8 == 1) {
        status = remove_block(size, &wanted);
        expect(rtpw_remove_block(buf, size, len), status, wanted);
    } else if (x / 128 % 8 == 2) {
        replace_block(x);
    } else if (x / 128 % 8 == 3) {
        status = change_form(size, &wanted, form);
        expect(rtpw_change_form(buf, size, len, form), status, wanted);
    } else {
        put_element(x);
    }
}
