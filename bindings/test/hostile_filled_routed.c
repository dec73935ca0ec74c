/* rtpw_make_template, rtpw_prepare_group, rtpw_make_from_group and rtpw_write_headers where a packet's block is full of
 * elements: what each receiver gets is what the calls for one packet make. */
#include "hostile.h"

#include "walk.h"

enum { MOST = 1500, ROOM = 2 * MOST + 16 * 264, ELEMENTS = 16, RECEIVERS = 6, DATA = ELEMENTS * 260 };

static uint8_t packet[MOST], data[DATA], header[ROOM], headers[RECEIVERS * ROOM];
static rtpw_new_ids ids;
static rtpw_element elements[ELEMENTS];
static size_t count;
static uint8_t allowed;

/* New ids of which most differ, and most are those of a one-byte form. */
static void random_ids(void) {
    uint64_t x = random_u64();
    unsigned step = (unsigned)(x % 14), none = (unsigned)(x / 16 % 64), longer = (unsigned)(x / 1024 % 64);
    for (unsigned i = 1; i < 256; i++) {
        unsigned it = i < 15 ? (i + step) % 14 + 1 : i;
        ids.id[i] = (uint8_t)(i % 16 == none || (x >> 20) % 8 == 1 ? 0 : i % 16 == longer ? 15 + random_below(241) : it);
    }
}

static size_t element_len(void) {
    uint64_t x = random_u64();
    return x % 8 == 0 ? x / 8 % 256 : x % 8 == 1 ? 240 + x / 8 % 16 : x % 8 == 2 ? (16u << x / 8 % 4) - 2 + x / 64 % 4 : 1 + x / 8 % 16;
}

/* Elements of ids of their own, and where their data lie: how many bytes these have. */
static size_t random_elements(void) {
    uint64_t x = random_u64();
    bool is_used[256] = {true};
    size_t at = 0;
    count = x % 8 == 0 ? ELEMENTS - x / 16 % 4 : x % 8 == 1 ? x / 16 % (ELEMENTS + 1) : x / 16 % 4;
    memset(elements, 0, sizeof elements);
    for (size_t i = 0; i < count; i++) {
        uint8_t id = 0;
        while (is_used[id]) {
            id = (uint8_t)(random_u64() % 16 == 0 || count > 8 ? random_u64() : 1 + random_u64() % 14);
        }
        is_used[id] = true;
        elements[i].id = id;
        elements[i].data_at = at;
        elements[i].data_len = x / 1024 % 2 == 0 ? 1 + random_below(16) : element_len();
        at += elements[i].data_len;
    }
    return at;
}

static void random_fields(rtpw_fields *fields) {
    uint64_t x = random_u64();
    fill(fields, sizeof *fields);
    fields->has_timestamp = x & 1;
    fields->has_ssrc = x >> 1 & 1;
    fields->has_sequence_number = x >> 2 & 1;
    fields->has_payload_type = x >> 3 & 1;
    fields->has_marker = x >> 4 & 1;
    fields->payload_type &= 0x7F;
}

/* The header as the calls for one packet make it, with the data from the offset on. */
static int32_t by_calls(const rtpw_fields *fields, size_t data_at, uint8_t *buf, size_t size, size_t *len) {
    int32_t status = rtpw_set_fields(buf, *len, fields);
    CHECK(status == RTPW_OK);
    status = rtpw_renumber(buf, *len, &ids);
    if (status == RTPW_LONG_ID && allowed != RTPW_ONE_BYTE_FORM) {
        status = rtpw_change_form(buf, size, len, RTPW_TWO_BYTE_FORM);
        status = status != RTPW_OK ? status : rtpw_renumber(buf, *len, &ids);
    }
    for (size_t i = 0; i < count && status == RTPW_OK; i++) {
        status = rtpw_put_element(buf, size, len, elements[i].id, data + data_at, elements[i].data_len, allowed);
        data_at += elements[i].data_len;
    }
    return status != RTPW_OK ? status : rtpw_compact(buf, size, len);
}

/* Whether a receiver's header is what those calls make. */
static bool is_by_calls(const rtpw_routed_header *it, size_t header_len) {
    static uint8_t by_hand[ROOM + 2];
    size_t len = header_len;
    memcpy(by_hand, packet, header_len);
    if (it->status != RTPW_OK || by_calls(&it->fields, it->data_at, by_hand, ROOM, &len) != RTPW_OK) {
        return false;
    }
    if (it->clears_padding != 0 || it->is_retransmission != 0) {
        by_hand[0] &= 0xDF;
    }
    if (it->is_retransmission != 0) {
        by_hand[len++] = (uint8_t)(it->original_number >> 8);
        by_hand[len++] = (uint8_t)it->original_number;
    }
    return it->len == len && memcmp(headers + it->at, by_hand, len) == 0;
}

static void write_all(const rtpw_template *made, size_t data_len, size_t header_len) {
    rtpw_routed_header receivers[RECEIVERS];
    fill(receivers, sizeof receivers);
    for (size_t i = 0; i < RECEIVERS; i++) {
        uint64_t x = random_u64();
        receivers[i].data_at = random_below(data_len - made->data_total + 1);
        receivers[i].is_retransmission = x % 4 == 0;
        receivers[i].clears_padding = x / 4 % 4 == 0;
        random_fields(&receivers[i].fields);
    }
    CHECK(rtpw_write_headers(made, header, made->header_len, data, data_len, receivers, RECEIVERS, headers,
                             sizeof headers) == RTPW_OK);
    for (size_t i = 0; i < RECEIVERS; i++) {
        CHECK(is_by_calls(&receivers[i], header_len));
    }
}

static void make_and_write(void) {
    static memory rooms;
    if (rooms.size == 0) {
        rooms = memory_of(ROOM);
    }
    uint64_t x = random_u64();
    size_t len = filled_packet(packet, MOST), header_len = walk(packet, len).header_len;
    size_t size = x % 4 == 0 ? header_len + x / 4 % 64 : x % 4 == 1 ? header_len + x / 4 % 1024 : ROOM;
    rtpw_template made, again;
    rtpw_group group;
    random_ids();
    size_t total = random_elements(), data_len = total + random_below(40), hand_len = header_len;
    allowed = (uint8_t)(x >> 32) % 3;
    fill(data, data_len);
    uint8_t *buf = block_in(&rooms, size);
    int32_t status = rtpw_make_template(packet, len, &ids, data, data_len, elements, count, allowed, buf, size, &made);
    if (status == RTPW_OK) {
        memcpy(header, buf, made.header_len);
        write_all(&made, data_len, header_len);
    }
    CHECK(rtpw_prepare_group(&ids, elements, count, allowed, &group) == RTPW_OK);
    CHECK(rtpw_make_from_group(&group, packet, len, buf, size, &again) == status);
    if (status == RTPW_OK) {
        CHECK(again.header_len == made.header_len && again.data_total == made.data_total);
        memcpy(header, buf, again.header_len);
        write_all(&again, data_len, header_len);
    }
    /* The same room is too short for the calls, or they refuse, exactly where it is for these. */
    static const rtpw_fields none;
    memcpy(header, packet, header_len);
    CHECK(by_calls(&none, 0, header, size, &hand_len) == status);
}

void filled_routed_round(void) {
    for (int i = 0; i < 6; i++) {
        make_and_write();
    }
}
