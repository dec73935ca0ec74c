/* rtpw_write_elements, rtpw_write_with, rtpw_write_with_form, rtpw_write_data_elements, rtpw_write_fixed_part: against
 * a writer that owes nothing to the library (RFC 8285, 4.2 and 4.3). What was written is read again. */
#include "hostile.h"

#include "walk_values.h"

/* The most elements that are written, and the longest data that they are written from. */
#define MOST 12
#define LONGEST_DATA 2000

static memory buffers, datas, lists, headers, pointers, lengths;
static uint8_t written[76 + MOST * 257 + 16], expected[sizeof written + 8];

/* Elements of a body, or of any data: most lie in the data. */
static size_t random_elements(rtpw_element elements[MOST], size_t data_len) {
    uint64_t x = random_u64();
    size_t count = x % 8 == 0 ? random_below(MOST + 1) : random_below(4);
    size_t longest = x / 8 % 2 == 0 ? 16 : x / 8 % 16 == 1 ? 300 : 40;
    for (size_t i = 0; i < count; i++) {
        rtpw_element *it = &elements[i];
        fill(it, sizeof *it);
        uint64_t y = random_u64();
        it->id = y % 32 == 0 ? (uint8_t)(y >> 8) : (uint8_t)(1 + y / 32 % 14);
        it->data_len = random_below(longest + 1);
        it->data_len = it->data_len < data_len ? it->data_len : data_len;
        it->data_at = y / 16384 % 4 == 0 ? data_len - it->data_len : random_below(data_len - it->data_len + 1);
        if (y >> 56 == 0) {
            it->data_at += (size_t)random_up_to_64_bits();
        }
        if (y >> 56 == 1) {
            it->data_len += (size_t)random_up_to_64_bits();
        }
    }
    return count;
}

static bool lies_in(const rtpw_element *it, size_t data_len) {
    return it->data_at <= data_len && it->data_len <= data_len - it->data_at;
}

/* Whether the form can carry each of the elements, and they lie in the data. */
static bool are_carried(const rtpw_element *elements, size_t count, size_t data_len, int form) {
    bool are = true;
    for (size_t i = 0; i < count; i++) {
        const rtpw_element *it = &elements[i];
        bool is_small = it->id <= 14 && it->data_len >= 1 && it->data_len <= 16;
        are = are && lies_in(it, data_len) && it->id != 0 && (form == 1 ? is_small : it->data_len <= 255);
    }
    return are;
}

static size_t put_elements(const rtpw_element *elements, size_t count, const uint8_t *data, int form, uint8_t *bytes) {
    size_t at = 0;
    for (size_t i = 0; i < count; i++) {
        const rtpw_element *it = &elements[i];
        if (form == 1) {
            bytes[at++] = (uint8_t)(it->id * 16u + it->data_len - 1);
        } else {
            bytes[at++] = it->id;
            bytes[at++] = (uint8_t)it->data_len;
        }
        memcpy(bytes + at, data + it->data_at, it->data_len);
        at += it->data_len;
    }
    return at;
}

/* The elements of the body are these. */
static void elements_are_read(const rtpw_element *elements, size_t count, const uint8_t *data, int form,
                              const uint8_t *body, size_t len) {
    rtpw_element read = {0, 0, 0, 0};
    for (size_t i = 0; i < count; i++) {
        CHECK(rtpw_next_element(body, len, (uint8_t)form, read.end, &read) == RTPW_OK);
        CHECK(read.id == elements[i].id && read.data_len == elements[i].data_len);
        CHECK(memcmp(body + read.data_at, data + elements[i].data_at, read.data_len) == 0);
    }
    CHECK(rtpw_next_element(body, len, (uint8_t)form, read.end, &read) == RTPW_NONE);
}

static size_t *length(size_t *before) {
    size_t *len = block_in(&lengths, sizeof *len);
    fill(len, sizeof *len);
    *before = *len;
    return len;
}

static uint8_t *buffer(size_t wanted, size_t *size) {
    uint64_t x = random_u64();
    *size = x % 4 == 0 ? random_below(wanted + 1) : wanted + x / 4 % 8;
    uint8_t *buf = block_in(&buffers, *size);
    fill(buf, *size);
    memcpy(expected, buf, *size);
    return buf;
}

/* What the call has to answer, and what the buffer has to hold. */
static void expect(int32_t status, bool is_given, size_t wanted, const uint8_t *buf, size_t size, size_t len,
                   size_t before) {
    bool is_written = is_given && size >= wanted;
    CHECK(status == (is_written ? RTPW_OK : is_given ? RTPW_SHORT_BUFFER : RTPW_BAD_FIELD));
    CHECK(len == (is_written ? wanted : before));
    if (is_written) {
        memcpy(expected, written, wanted);
    }
    CHECK(memcmp(buf, expected, size) == 0);
}

static void write_elements(const rtpw_element *elements, size_t count, const uint8_t *data, size_t data_len) {
    uint64_t x = random_u64();
    uint8_t form = x % 16 == 0 ? (uint8_t)(x >> 8) : (uint8_t)(1 + x / 16 % 2);
    bool is_given = (form == 1 || form == 2) && are_carried(elements, count, data_len, form);
    size_t wanted = is_given ? put_elements(elements, count, data, form, written) : 0;
    size_t size, before, *len = length(&before);
    uint8_t *buf = buffer(wanted, &size);
    int32_t status = rtpw_write_elements(data, data_len, elements, count, form, buf, size, len);
    expect(status, is_given, wanted, buf, size, *len, before);
    if (status == RTPW_OK) {
        elements_are_read(elements, count, data, form, buf, wanted);
    }
}

/* Writes the header and a block with these elements, which can be written: how many bytes they take. */
static size_t put_block(const rtpw_header *header, const rtpw_element *elements, size_t count, const uint8_t *data,
                        int form) {
    size_t body_at = 4 + write_fixed(header, true, written);
    size_t wanted = body_at + put_elements(elements, count, data, form, written + body_at);
    while (wanted % 4 != 0) {
        written[wanted++] = 0;
    }
    written[body_at - 4] = form == 1 ? 0xBE : 0x10;
    written[body_at - 3] = form == 1 ? 0xDE : 0x00;
    written[body_at - 2] = (uint8_t)((wanted - body_at) / 1024);
    written[body_at - 1] = (uint8_t)((wanted - body_at) / 4);
    return wanted;
}

static void write_with(const rtpw_element *elements, size_t count, const uint8_t *data, size_t data_len) {
    rtpw_header *header = block_in(&headers, sizeof *header), same;
    random_header(header);
    memcpy(&same, header, sizeof same);
    int allowed = (int)random_below(4); /* 0 allows any form, and 3 is none */
    int form = allowed != 0 ? allowed : are_carried(elements, count, data_len, 1) ? 1 : 2;
    bool is_given = form < 3 && same.payload_type < 128 && same.csrc_count < 16 &&
                    are_carried(elements, count, data_len, form);
    size_t wanted = is_given ? put_block(&same, elements, count, data, form) : 0;
    size_t body_at = 16 + 4 * (size_t)same.csrc_count;
    size_t size, before, *len = length(&before);
    uint8_t *buf = buffer(wanted, &size);
    int32_t status = allowed == 0 && random_u64() % 2 == 0
        ? rtpw_write_with(header, data, data_len, elements, count, buf, size, len)
        : rtpw_write_with_form(header, data, data_len, elements, count, (uint8_t)allowed, buf, size, len);
    expect(status, is_given, wanted, buf, size, *len, before);
    CHECK(memcmp(header, &same, sizeof same) == 0);
    if (status == RTPW_OK) {
        elements_are_read(elements, count, data, form, buf + body_at, wanted - body_at);
    }
}

#ifndef MODULE_ALONE /* JavaScript's module exports no such call */
/* The same header without contributing sources, and the same elements, with pointers to their data. */
static void write_data_elements(const rtpw_element *elements, size_t count, const uint8_t *data, size_t data_len) {
    rtpw_header header;
    random_header(&header);
    header.csrc_count = 0;
    uint8_t form = (uint8_t)random_below(4);
    bool are_within = true, is_given = (form == 1 || form == 2) && header.payload_type < 128;
    rtpw_data_element *chosen = block_in(&pointers, count * sizeof *chosen), same[MOST];
    memset(same, 0, sizeof same); /* the bytes between fields too, which are compared */
    for (size_t i = 0; i < count; i++) {
        const rtpw_element *it = &elements[i];
        are_within = are_within && lies_in(it, data_len);
        same[i].id = it->id;
        same[i].data = data;
        same[i].own = (size_t)random_u64();
        if (are_within) {
            same[i].data = it->data_len == 0 && random_u64() % 2 == 0 ? NULL : data + it->data_at;
            same[i].data_len = it->data_len;
        }
    }
    if (!are_within) {
        return;
    }
    memcpy(chosen, same, count * sizeof *chosen);
    is_given = is_given && are_carried(elements, count, data_len, form);
    rtpw_fixed_part *fixed = block_in(&headers, sizeof *fixed), given;
    memset(&given, 0, sizeof given);
    given.version = (uint8_t)random_u64();
    given.has_padding = header.has_padding;
    given.has_extension = (uint8_t)random_u64();
    given.marker = header.marker;
    given.payload_type = header.payload_type;
    given.sequence_number = header.sequence_number;
    given.timestamp = header.timestamp;
    given.ssrc = header.ssrc;
    memcpy(fixed, &given, sizeof given);
    size_t wanted = is_given ? put_block(&header, elements, count, data, form) : 0;
    size_t size, before, *len = length(&before);
    uint8_t *buf = buffer(wanted, &size);
    int32_t status = rtpw_write_data_elements(fixed, chosen, count, form, buf, size, len);
    expect(status, is_given, wanted, buf, size, *len, before);
    CHECK(memcmp(chosen, same, count * sizeof *chosen) == 0 && memcmp(fixed, &given, sizeof given) == 0);

    is_given = header.payload_type < 128;
    wanted = is_given ? write_fixed(&header, false, written) : 0;
    buf = buffer(wanted, &size);
    status = rtpw_write_fixed_part(fixed, buf, size);
    expect(status, is_given, wanted, buf, size, status == RTPW_OK ? wanted : before, before);
    CHECK(memcmp(fixed, &given, sizeof given) == 0);
}
#endif

void written_elements_round(void) {
    static uint8_t same_data[LONGEST_DATA];
    rtpw_element chosen[MOST];
    if (datas.size == 0) {
        buffers = memory_of(sizeof expected);
        datas = memory_of(LONGEST_DATA);
        lists = memory_of(sizeof chosen);
        headers = memory_of(sizeof(rtpw_header));
        pointers = memory_of(MOST * sizeof(rtpw_data_element));
        lengths = memory_of(sizeof(size_t));
    }
    size_t data_len = random_u64() % 8 == 0 ? random_below(LONGEST_DATA) : random_below(60);
    uint8_t *data = block_in(&datas, data_len);
    fill(data, data_len);
    memcpy(same_data, data, data_len);
    size_t count = random_elements(chosen, data_len);
    rtpw_element *elements = block_in(&lists, count * sizeof *elements);
    memcpy(elements, chosen, count * sizeof *elements);

    write_elements(elements, count, data, data_len);
    write_with(elements, count, data, data_len);
#ifndef MODULE_ALONE
    write_data_elements(elements, count, data, data_len);
#endif
    CHECK(memcmp(data, same_data, data_len) == 0);
    CHECK(memcmp(elements, chosen, count * sizeof *elements) == 0);
}
