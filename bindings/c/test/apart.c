/* Data that lie where the call writes: each of the seven calls refuses them and writes nothing, and takes data that only
 * lie beside it. The expected bytes are worked out by hand from RFC 3550, 5.1 and RFC 8285, 4.2 and 4.3. */
#include "../rtp_wire.h"

#include <stdio.h>
#include <string.h>

static int failed = 0;

#define CHECK(holds) \
    do { \
        if (!(holds)) { \
            printf("apart.c:%d: %s, %s, %d bytes at %d\n", __LINE__, name, #holds, (int)data_len, (int)(data - BUF)); \
            failed = 1; \
        } \
    } while (0)

/* The buffer lies in the middle of the room, with memory of the caller on both sides. */
enum { SIZE = 40, PACKET = 28, LONGEST = 60 };
static uint8_t room[3 * LONGEST + SIZE], before[sizeof room];
#define BUF (room + LONGEST)

/* A packet with the elements 1 "ab" and 2 "cde", padding, and a payload of four bytes. Around it, and behind it, each
 * byte is another one. */
static const uint8_t SAMPLE[PACKET] = {0x90, 0x6F, 0,    1,   0,   0,    0,   0xA0, 0,   0, 0, 0x2C, 0xBE, 0xDE,
                                       0,    2,    0x11, 'a', 'b', 0x22, 'c', 'd',  'e', 0, 1, 2,    3,    4};

static void fill(void) {
    size_t i;
    for (i = 0; i < sizeof room; i++) {
        room[i] = (uint8_t)(i + 1);
    }
    memcpy(BUF, SAMPLE, PACKET);
    memcpy(before, room, sizeof room);
}

/* What the last call left in the length that it was given. */
static size_t len;

static int32_t set(size_t size, const uint8_t *data, size_t data_len) {
    return rtpw_set_element(BUF, size, 1, data, data_len);
}

static int32_t put(size_t size, const uint8_t *data, size_t data_len) {
    len = size == 0 ? 0 : PACKET;
    return rtpw_put_element(BUF, size, &len, 3, data, data_len, RTPW_ANY_FORM);
}

static int32_t add(size_t size, const uint8_t *data, size_t data_len) {
    len = size == 0 ? 0 : PACKET;
    return rtpw_add_element(BUF, size, &len, 1, data, data_len, RTPW_ANY_FORM);
}

/* The data are the body of a block of another form, and so whole words. */
static int32_t block(size_t size, const uint8_t *data, size_t data_len) {
    len = size == 0 ? 0 : PACKET;
    return rtpw_put_block(BUF, size, &len, 0xABAC, data, data_len);
}

/* The header of the sample, and one element, 1, of all data. */
static rtpw_header header_of(void) {
    rtpw_header header;
    memset(&header, 0, sizeof header);
    header.payload_type = 0x6F;
    header.sequence_number = 1;
    header.timestamp = 0xA0;
    header.ssrc = 0x2C;
    return header;
}

static rtpw_element element_of(size_t data_len) {
    rtpw_element element;
    memset(&element, 0, sizeof element);
    element.data_len = data_len;
    element.id = 1;
    return element;
}

static int32_t with(size_t size, const uint8_t *data, size_t data_len) {
    rtpw_header header = header_of();
    rtpw_element element = element_of(data_len);
    len = 77;
    return rtpw_write_with(&header, data, data_len, &element, 1, BUF, size, &len);
}

static int32_t with_form(size_t size, const uint8_t *data, size_t data_len) {
    rtpw_header header = header_of();
    rtpw_element element = element_of(data_len);
    len = 77;
    return rtpw_write_with_form(&header, data, data_len, &element, 1, RTPW_TWO_BYTE_FORM, BUF, size, &len);
}

static int32_t elements(size_t size, const uint8_t *data, size_t data_len) {
    rtpw_element element = element_of(data_len);
    len = 77;
    return rtpw_write_elements(data, data_len, &element, 1, RTPW_TWO_BYTE_FORM, BUF, size, &len);
}

/* Whether one of the data is one of so many bytes of the buffer: each is looked at. */
static bool share(const uint8_t *data, size_t data_len, size_t size) {
    size_t i;
    for (i = 0; i < data_len; i++) {
        if (data + i >= BUF && data + i < BUF + size) {
            return true;
        }
    }
    return false;
}

typedef int32_t call(size_t size, const uint8_t *data, size_t data_len);

/* All data in the room are refused where they share a byte with the buffer, of this size, and else not, but for a body
 * that is no whole words. */
static void is_refused(const char *name, call *it, size_t size, size_t old_len) {
    size_t data_len, at;
    for (data_len = 0; data_len <= LONGEST; data_len++) {
        for (at = 0; at + data_len <= sizeof room; at++) {
            const uint8_t *data = room + at;
            fill();
            if (share(data, data_len, size) || (it == block && data_len % 4 != 0)) {
                CHECK(it(size, data, data_len) == RTPW_BAD_FIELD);
                CHECK(len == old_len);
                CHECK(memcmp(room, before, sizeof room) == 0);
            } else {
                CHECK(it(size, data, data_len) != RTPW_BAD_FIELD);
                CHECK(memcmp(room, before, LONGEST) == 0);
                CHECK(memcmp(BUF + size, before + LONGEST + size, sizeof room - LONGEST - size) == 0);
            }
        }
    }
}

/* The two bytes before the buffer are taken as they are, and so are the two behind it, and of a body the four; and so
 * is what has no byte, within the buffer, at its ends and at NULL. Expected are the front of the buffer, where `xy`
 * stands for the two bytes, and `xyzw` for the four, and without any the status and the front. */
static void is_taken(const char *name, call *it, size_t size, const char *two, size_t two_len, int32_t none_status,
                     const char *none, size_t none_len) {
    uint8_t expected[SIZE];
    const uint8_t *data;
    size_t data_len, i;
    int side;
    for (side = 0; side < 2; side++) {
        data_len = it == block ? 4 : 2;
        data = side == 0 ? BUF - data_len : BUF + size;
        fill();
        memcpy(expected, two, two_len);
        memcpy(memchr(expected, 'x', two_len), data, data_len);
        CHECK(it(size, data, data_len) == RTPW_OK);
        CHECK(memcmp(BUF, expected, two_len) == 0);
        CHECK(memcmp(BUF + two_len, before + LONGEST + two_len, SIZE - two_len) == 0);
        CHECK(it == set || len == two_len);
    }
    data_len = 0;
    for (i = 0; i <= size + 1; i++) {
        data = i <= size ? BUF + i : NULL;
        fill();
        if (it(size, data, data_len) != none_status || memcmp(BUF, none, none_len) != 0 ||
            memcmp(BUF + none_len, before + LONGEST + none_len, SIZE - none_len) != 0 ||
            (it != set && len != none_len)) {
            printf("apart.c: %s, no data, the place %d\n", name, (int)i);
            failed = 1;
        }
    }
}

/* A buffer of no bytes shares none. */
static void is_empty(const char *name, call *it, int32_t status) {
    const uint8_t *data = BUF - 1;
    size_t data_len, step = it == block ? 4 : 1;
    for (data_len = step; data_len <= 3 * step; data_len += step) {
        fill();
        CHECK(it(0, data, data_len) == status);
        CHECK(memcmp(room, before, sizeof room) == 0);
    }
}

/* All data count, also those that no element takes: of three bytes, the last of which is the first of the buffer, an
 * element has the first two. */
static void all_data_count(void) {
    const char *name = "all data";
    const uint8_t *data = BUF - 2;
    size_t data_len;
    rtpw_header header = header_of();
    rtpw_element element = element_of(2);
    for (data_len = 2; data_len <= 3; data_len++) {
        int32_t status = data_len == 2 ? RTPW_OK : RTPW_BAD_FIELD;
        fill();
        CHECK(rtpw_write_with(&header, data, data_len, &element, 1, BUF, SIZE, &len) == status);
        CHECK(rtpw_write_with_form(&header, data, data_len, &element, 1, RTPW_NO_BLOCK, BUF, SIZE, &len) == status);
        CHECK(rtpw_write_elements(data, data_len, &element, 1, RTPW_ONE_BYTE_FORM, BUF, SIZE, &len) == status);
        CHECK(data_len == 2 || memcmp(room, before, sizeof room) == 0);
    }
}

/* Lengths and sizes of more than 32 bits are looked at whole, before a byte is. */
static void none_is_cut(void) {
    static call *const CALLS[] = {set, put, add, block, with, with_form, elements};
    static const char *const NAMES[] = {"set_element", "put_element",     "add_element",   "put_block",
                                        "write_with",  "write_with_form", "write_elements"};
    const size_t far = (size_t)1 << 32;
    rtpw_header header = header_of();
    rtpw_element element = element_of(2);
    size_t i;
    for (i = 0; i < sizeof CALLS / sizeof *CALLS; i++) {
        const char *name = NAMES[i];
        const uint8_t *data = BUF - 8;
        size_t data_len = far + 4;
        fill();
        CHECK(CALLS[i](i == 0 ? PACKET : SIZE, data, data_len) == RTPW_BAD_FIELD);
        data = BUF + SIZE, data_len = 4;
        CHECK(CALLS[i](far + PACKET, data, data_len) == RTPW_BAD_FIELD);
        CHECK(memcmp(room, before, sizeof room) == 0);
    }
    /* Of so many data an element has the first two, which lie before the buffer. */
    const char *name = "data past 2^32";
    const uint8_t *data = BUF - 8;
    size_t data_len = far + 4;
    CHECK(rtpw_write_with(&header, data, data_len, &element, 1, BUF, SIZE, &len) == RTPW_BAD_FIELD);
    CHECK(rtpw_write_with_form(&header, data, data_len, &element, 1, RTPW_NO_BLOCK, BUF, SIZE, &len) == RTPW_BAD_FIELD);
    CHECK(rtpw_write_elements(data, data_len, &element, 1, RTPW_ONE_BYTE_FORM, BUF, SIZE, &len) == RTPW_BAD_FIELD);
    CHECK(memcmp(room, before, sizeof room) == 0);
}

#define FIXED "\x90\x6F\0\1\0\0\0\xA0\0\0\0\x2C"

int main(void) {
    is_refused("set_element", set, PACKET, 0);
    is_refused("put_element", put, SIZE, PACKET);
    is_refused("add_element", add, SIZE, PACKET);
    is_refused("put_block", block, SIZE, PACKET);
    is_refused("write_with", with, SIZE, 77);
    is_refused("write_with_form", with_form, SIZE, 77);
    is_refused("write_elements", elements, SIZE, 77);
    is_taken("set_element", set, PACKET,
             FIXED "\xBE\xDE\0\2\x11xy\x22"
                   "cde\0\1\2\3\4",
             28, RTPW_NONE,
             FIXED "\xBE\xDE\0\2\x11"
                   "ab\x22"
                   "cde\0\1\2\3\4",
             28);
    is_taken("put_element", put, SIZE,
             FIXED "\xBE\xDE\0\3\x11"
                   "ab\x22"
                   "cde\x31xy\0\0\1\2\3\4",
             32, RTPW_OK, FIXED "\x10\0\0\3\1\2ab\2\3cde\3\0\0\1\2\3\4", 32);
    is_taken("add_element", add, SIZE,
             FIXED "\xBE\xDE\0\3\x11"
                   "ab\x22"
                   "cde\x11xy\0\0\1\2\3\4",
             32, RTPW_OK, FIXED "\x10\0\0\3\1\2ab\2\3cde\1\0\0\1\2\3\4", 32);
    is_taken("put_block", block, SIZE, FIXED "\xAB\xAC\0\1xyzw\1\2\3\4", 24, RTPW_OK,
             FIXED "\xAB\xAC\0\0\1\2\3\4", 20);
    is_taken("write_with", with, SIZE, FIXED "\xBE\xDE\0\1\x11xy\0", 20, RTPW_OK, FIXED "\x10\0\0\1\1\0\0\0", 20);
    is_taken("write_with_form", with_form, SIZE, FIXED "\x10\0\0\1\1\2xy", 20, RTPW_OK, FIXED "\x10\0\0\1\1\0\0\0", 20);
    is_taken("write_elements", elements, SIZE, "\1\2xy", 4, RTPW_OK, "\1\0", 2);
    is_empty("set_element", set, RTPW_CUT_FIXED_PART);
    is_empty("put_element", put, RTPW_CUT_FIXED_PART);
    is_empty("add_element", add, RTPW_CUT_FIXED_PART);
    is_empty("put_block", block, RTPW_CUT_FIXED_PART);
    is_empty("write_with", with, RTPW_SHORT_BUFFER);
    is_empty("write_with_form", with_form, RTPW_SHORT_BUFFER);
    is_empty("write_elements", elements, RTPW_SHORT_BUFFER);
    all_data_count();
    none_is_cut();
    return failed;
}
