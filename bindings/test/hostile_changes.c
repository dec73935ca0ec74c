/* rtpw_set_marker, rtpw_set_payload_type, rtpw_set_sequence_number, rtpw_set_timestamp, rtpw_set_ssrc,
 * rtpw_set_fields, rtpw_set_csrc, rtpw_set_element, rtpw_remove_element, rtpw_set_padding,
 * rtpw_remove_padding */
#include "hostile.h"

#include "../c/rtp_wire.h"
#include "walk.h"

/* The packet of this round, what it was before the call, and what it has to be after it. */
static uint8_t before[LONGEST], expected[LONGEST];
static uint8_t *bytes;
static size_t len;
static walked it;

static void put_number(size_t at, size_t width, uint32_t number) {
    for (size_t i = 0; i < width; i++) {
        expected[at + i] = (uint8_t)(number >> (8 * (width - 1 - i)));
    }
}

/* The packet must be as is expected, and is then what it was before. */
static void expect(int32_t status, int32_t expected_status) {
    CHECK(status == expected_status);
    if (expected_status != RTPW_OK) {
        memcpy(expected, before, len);
    }
    CHECK(memcmp(bytes, expected, len) == 0);
    memcpy(bytes, before, len);
    memcpy(expected, before, len);
}

static void fixed_part(void) {
    uint64_t x = random_u64();
    if (it.cause == 0) {
        expected[1] = (uint8_t)(before[1] % 128 + (x % 2 != 0 ? 128 : 0));
    }
    expect(rtpw_set_marker(bytes, len, x % 2 != 0), it.cause);
    uint8_t payload_type = (uint8_t)(x >> 8);
    if (it.cause == 0) {
        expected[1] = (uint8_t)(before[1] / 128 * 128 + payload_type % 128);
    }
    expect(rtpw_set_payload_type(bytes, len, payload_type), payload_type > 127 ? RTPW_BAD_FIELD : it.cause);
    if (it.cause == 0) {
        put_number(2, 2, (uint16_t)x);
    }
    expect(rtpw_set_sequence_number(bytes, len, (uint16_t)x), it.cause);
    if (it.cause == 0) {
        put_number(4, 4, (uint32_t)(x >> 16));
    }
    expect(rtpw_set_timestamp(bytes, len, (uint32_t)(x >> 16)), it.cause);
    if (it.cause == 0) {
        put_number(8, 4, (uint32_t)(x >> 32));
    }
    expect(rtpw_set_ssrc(bytes, len, (uint32_t)(x >> 32)), it.cause);
    size_t index = random_u64() % 4 == 0 ? (size_t)random_up_to_64_bits() : random_below(4);
    bool is_there = it.cause == 0 && index < it.csrc_count;
    if (is_there) {
        put_number(12 + 4 * index, 4, (uint32_t)x);
    }
    expect(rtpw_set_csrc(bytes, len, index, (uint32_t)x), it.cause != 0 ? it.cause : is_there ? RTPW_OK : RTPW_NONE);
}

/* Any bytes as fields; half of the flags are 0, and half of the payload types are in their range. */
static void several_fields(void) {
    static memory fields_memory;
    if (fields_memory.size == 0) {
        fields_memory = memory_of(sizeof(rtpw_fields));
    }
    rtpw_fields *fields = (rtpw_fields *)block_in(&fields_memory, sizeof *fields), given;
    fill((uint8_t *)fields, sizeof *fields);
    uint64_t x = random_u64();
    fields->has_marker = (uint8_t)(x % 2 != 0 ? fields->has_marker : 0);
    fields->has_payload_type = (uint8_t)(x / 2 % 2 != 0 ? fields->has_payload_type : 0);
    fields->has_sequence_number = (uint8_t)(x / 4 % 2 != 0 ? fields->has_sequence_number : 0);
    fields->has_timestamp = (uint8_t)(x / 8 % 2 != 0 ? fields->has_timestamp : 0);
    fields->has_ssrc = (uint8_t)(x / 16 % 2 != 0 ? fields->has_ssrc : 0);
    memcpy(&given, fields, sizeof given);
    bool is_bad = fields->has_payload_type != 0 && fields->payload_type > 127;
    if (it.cause == 0 && !is_bad) {
        uint8_t marker = fields->has_marker == 0 ? before[1] / 128 : fields->marker != 0;
        uint8_t payload_type = fields->has_payload_type == 0 ? before[1] % 128 : fields->payload_type;
        expected[1] = (uint8_t)(128 * marker + payload_type);
        if (fields->has_sequence_number != 0) {
            put_number(2, 2, fields->sequence_number);
        }
        if (fields->has_timestamp != 0) {
            put_number(4, 4, fields->timestamp);
        }
        if (fields->has_ssrc != 0) {
            put_number(8, 4, fields->ssrc);
        }
    }
    expect(rtpw_set_fields(bytes, len, fields), is_bad ? RTPW_BAD_FIELD : it.cause);
    CHECK(memcmp(fields, &given, sizeof given) == 0);
}

static void set_element(void) {
    static memory data_memory;
    static uint8_t data_before[300];
    if (data_memory.size == 0) {
        data_memory = memory_of(300);
    }
    uint8_t id = random_id();
    found last = {0, 0, 0, 0};
    int has_last = it.cause == 0 && walk_last(before + it.body_at, it.body_len, it.form, id, &last);
    size_t data_len = has_last && random_u64() % 4 != 0 ? last.data_len : random_below(300);
    uint8_t *data = block_in(&data_memory, data_len);
    fill(data, data_len);
    memcpy(data_before, data, data_len);
    int is_set = has_last && last.data_len == data_len;
    if (is_set) {
        memcpy(expected + it.body_at + last.data_at, data, data_len);
    }
    expect(rtpw_set_element(bytes, len, id, data, data_len), it.cause != 0 ? it.cause : is_set ? RTPW_OK : RTPW_NONE);
    CHECK(memcmp(data, data_before, data_len) == 0);
}

static void remove_element(void) {
    uint8_t id = random_id();
    const uint8_t *body = before + it.body_at;
    int is_removed = 0;
    found element;
    for (size_t at = 0; it.cause == 0 && walk_on(body, it.body_len, it.form, at, &element);) {
        at = element.data_at + element.data_len;
        if (element.id == id) {
            memset(expected + it.body_at + element.start, 0, at - element.start);
            is_removed = 1;
        }
    }
    expect(rtpw_remove_element(bytes, len, id), it.cause != 0 ? it.cause : is_removed ? RTPW_OK : RTPW_NONE);
}

static void padding(void) {
    static memory lengths;
    if (lengths.size == 0) {
        lengths = memory_of(sizeof(size_t));
    }
    bool has_padding = random_u64() % 2 != 0;
    if (it.cause == 0) {
        expected[0] = (uint8_t)(0x80 + (has_padding ? 0x20 : 0) + before[0] % 32);
    }
    expect(rtpw_set_padding(bytes, len, has_padding), it.cause);
    size_t *left = block_in(&lengths, sizeof *left), same;
    fill(left, sizeof *left);
    same = *left;
    size_t payload_len = it.cause == 0 ? len - it.header_len : 0;
    size_t count = payload_len > 0 && (before[0] & 0x20) != 0 ? before[len - 1] : 0;
    int32_t status = it.cause != 0 ? it.cause : count > payload_len ? RTPW_BAD_FIELD : RTPW_OK;
    if (status == RTPW_OK) {
        expected[0] = before[0] & 0xDF;
    }
    expect(rtpw_remove_padding(bytes, len, left), status);
    CHECK(*left == (status == RTPW_OK ? len - count : same));
}

void changes_round(void) {
    static memory datagrams;
    if (datagrams.size == 0) {
        datagrams = memory_of(LONGEST);
    }
    len = random_len();
    bytes = block_in(&datagrams, len);
    random_packet(bytes, len);
    memcpy(before, bytes, len);
    memcpy(expected, bytes, len);
    it = walk(before, len);
    fixed_part();
    several_fields();
    set_element();
    remove_element();
    padding();
}
