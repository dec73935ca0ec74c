/* rtpw_make_template, rtpw_prepare_group, rtpw_make_from_group, rtpw_write_headers */
#include "hostile.h"

#include "walk.h"

enum { MOST = 9, DATA = 700 };

/* An element as it goes to the receivers. */
typedef struct {
    unsigned id;
    const uint8_t *data;
    size_t len;
} part;

static part parts[LONGEST + 20];
static size_t part_count;
static uint8_t packet_before[LONGEST], data_before[DATA], expected[LONGEST + 16 * 264], room_before[LONGEST], headers_expected[4 * LONGEST];
static memory packets, ids_memory, datas, element_memory, rooms, mades, receiver_memory, outputs, copies, shape_memory, group_memory;

static size_t header_of(int form) {
    return form == 1 ? 1 : 2;
}

/* How many bytes the elements take in whole words. */
static size_t words_of(int form) {
    size_t len = 0;
    for (size_t i = 0; i < part_count; i++) {
        len += header_of(form) + parts[i].len;
    }
    return (len + 3) / 4 * 4;
}

/* The elements of the packet under their new ids, and how many bytes its own take in whole words in the two-byte form:
 * false where its form can't carry a new id. */
static bool renumber(const walked *it, const rtpw_new_ids *ids, size_t *wide_len) {
    bool carries = true;
    size_t wide = 0;
    found element;
    const uint8_t *body = packet_before + it->body_at;
    part_count = 0;
    for (size_t at = 0; walk_on(body, it->body_len, it->form, at, &element); at = element.data_at + element.data_len) {
        unsigned id = element.id == 0 ? 0 : ids->id[element.id];
        if (id > 14 && it->form == 1) {
            carries = false;
        }
        if (id != 0) {
            parts[part_count++] = (part){id, body + element.data_at, element.data_len};
        }
        wide += element.id == 0 ? 0 : 2 + element.data_len;
    }
    *wide_len = (wide + 3) / 4 * 4;
    return carries;
}

/* Puts an element among them: whether it took the place of the only one of its id, of as many bytes. */
static bool put(unsigned id, const uint8_t *data, size_t len) {
    size_t count = 0, last = 0, kept = 0;
    for (size_t i = 0; i < part_count; i++) {
        if (parts[i].id == id) {
            count++;
            last = i;
        }
    }
    bool is_same = count == 1 && parts[last].len == len;
    for (size_t i = 0; i < part_count; i++) {
        if (parts[i].id != id) {
            parts[kept++] = parts[i];
        } else if (i == last) {
            parts[kept++] = (part){id, data, len};
        }
    }
    if (count == 0) {
        parts[kept++] = (part){id, data, len};
    }
    part_count = kept;
    return is_same;
}

/* The header that is made in `expected`, and what is told of it: the status. */
static int32_t make(size_t len, const rtpw_new_ids *ids, size_t data_len, const rtpw_element *elements, size_t count,
                    unsigned allowed, size_t size, rtpw_template *made) {
    if (allowed > 2) {
        return RTPW_BAD_FIELD;
    }
    for (size_t i = 0; i < count; i++) {
        if (elements[i].data_at > data_len || elements[i].data_len > data_len - elements[i].data_at) {
            return RTPW_BAD_FIELD;
        }
    }
    if (count > 16) {
        return RTPW_BAD_FIELD;
    }
    walked it = walk(packet_before, len);
    if (it.cause != 0) {
        return it.cause;
    }
    for (size_t i = 0; i < count; i++) {
        for (size_t j = 0; j < i; j++) {
            if (elements[i].id == elements[j].id) {
                return RTPW_BAD_FIELD;
            }
        }
    }
    if (it.header_len > size) {
        return RTPW_SHORT_BUFFER;
    }
    size_t sources_end = 12 + it.csrc_count * 4, body_len = it.body_len, wide_len;
    int form = it.form;
    if (!renumber(&it, ids, &wide_len)) {
        if (allowed == 1) {
            return RTPW_LONG_ID;
        }
        form = 2;
        body_len = wide_len > body_len ? wide_len : body_len;
        if (body_len > 262140) {
            return RTPW_LONG_BLOCK;
        }
        if (sources_end + 4 + body_len > size) {
            return RTPW_SHORT_BUFFER;
        }
    }
    for (size_t i = 0; i < count; i++) {
        if (elements[i].id == 0) {
            return RTPW_BAD_ID;
        }
        if (elements[i].data_len > 255) {
            return RTPW_BAD_FIELD;
        }
        if (form == 3) {
            return RTPW_UNKNOWN_FORM;
        }
        if (allowed == 1 && elements[i].id > 14) {
            return RTPW_LONG_ID;
        }
        bool is_short = elements[i].id <= 14 && elements[i].data_len >= 1 && elements[i].data_len <= 16;
        int needed = form != 2 && is_short ? 1 : 2;
        if (allowed == 1 && needed == 2) {
            return RTPW_FORM_NOT_ALLOWED;
        }
        needed = allowed == 2 ? 2 : needed;
        if (put(elements[i].id, data_before + elements[i].data_at, elements[i].data_len) && needed == form) {
            continue;
        }
        form = needed;
        body_len = words_of(form) > body_len ? words_of(form) : body_len;
        if (body_len > 262140) {
            return RTPW_LONG_BLOCK;
        }
        if (sources_end + 4 + body_len > size) {
            return RTPW_SHORT_BUFFER;
        }
    }
    memset(made, 0, sizeof *made);
    made->count = (uint8_t)count;
    memcpy(expected, packet_before, it.header_len);
    if (form == 1 || form == 2) {
        body_len = words_of(form);
        expected[0] |= 0x10;
        if (form != it.form) {
            expected[sources_end] = form == 1 ? 0xBE : 0x10;
            expected[sources_end + 1] = form == 1 ? 0xDE : 0;
        }
        expected[sources_end + 2] = (uint8_t)(body_len / 1024);
        expected[sources_end + 3] = (uint8_t)(body_len / 4);
        size_t at = sources_end + 4;
        memset(expected + at, 0, body_len);
        for (size_t i = 0; i < part_count; i++) {
            expected[at] = (uint8_t)(form == 1 ? parts[i].id * 16 + parts[i].len - 1 : parts[i].id);
            if (form == 2) {
                expected[at + 1] = (uint8_t)parts[i].len;
            }
            at += header_of(form);
            memcpy(expected + at, parts[i].data, parts[i].len);
            for (size_t j = 0; j < count; j++) {
                if (elements[j].id == parts[i].id) {
                    made->data_at[j] = (uint32_t)at;
                    made->data_len[j] = (uint8_t)parts[i].len;
                    made->data_total = (uint16_t)(made->data_total + parts[i].len);
                }
            }
            at += parts[i].len;
        }
        made->header_len = (uint32_t)(sources_end + 4 + body_len);
    } else {
        made->header_len = (uint32_t)it.header_len;
    }
    return RTPW_OK;
}

/* The same by the calls for one packet, one after another on a copy: the status of the first that refuses. */
static int32_t by_calls(size_t header_len, const rtpw_fields *fields, const rtpw_new_ids *ids, const uint8_t *data,
                        const rtpw_element *elements, const size_t *data_at, size_t count, uint8_t allowed,
                        uint8_t *buf, size_t size, size_t *len) {
    memcpy(buf, packet_before, header_len);
    *len = header_len;
    int32_t status = rtpw_set_fields(buf, *len, fields);
    status = status != RTPW_OK ? status : rtpw_renumber(buf, *len, ids);
    if (status == RTPW_LONG_ID && allowed != RTPW_ONE_BYTE_FORM) {
        status = rtpw_change_form(buf, size, len, RTPW_TWO_BYTE_FORM);
        status = status != RTPW_OK ? status : rtpw_renumber(buf, *len, ids);
    }
    for (size_t i = 0; i < count && status == RTPW_OK; i++) {
        status = rtpw_put_element(buf, size, len, elements[i].id, data + data_at[i], elements[i].data_len, allowed);
    }
    return status != RTPW_OK ? status : rtpw_compact(buf, size, len);
}

static void random_fields(rtpw_fields *fields) {
    fill(fields, sizeof *fields);
    uint64_t x = random_u64();
    uint8_t *flags[] = {&fields->has_timestamp, &fields->has_ssrc, &fields->has_sequence_number,
                        &fields->has_payload_type, &fields->has_marker};
    for (int i = 0; i < 5; i++) {
        *flags[i] = (uint8_t)(x >> i & 1);
    }
    if (x / 32 % 8 != 0) {
        fields->payload_type &= 0x7F;
    }
}

static void set_fields(uint8_t *bytes, const rtpw_fields *fields) {
    if (fields->has_marker) {
        bytes[1] = (uint8_t)((bytes[1] & 0x7F) | (fields->marker != 0 ? 0x80 : 0));
    }
    if (fields->has_payload_type) {
        bytes[1] = (uint8_t)((bytes[1] & 0x80) | fields->payload_type);
    }
    if (fields->has_sequence_number) {
        bytes[2] = (uint8_t)(fields->sequence_number >> 8);
        bytes[3] = (uint8_t)fields->sequence_number;
    }
    for (int i = 0; i < 4; i++) {
        if (fields->has_timestamp) {
            bytes[4 + i] = (uint8_t)(fields->timestamp >> (24 - 8 * i));
        }
        if (fields->has_ssrc) {
            bytes[8 + i] = (uint8_t)(fields->ssrc >> (24 - 8 * i));
        }
    }
}

/* Why the headers of none are written, and RTPW_OK where they are. */
static int32_t template_status(const rtpw_template *made, const uint8_t *bytes, size_t size) {
    size_t total = 0;
    if (made->count > 16 || made->header_len > size) {
        return RTPW_BAD_FIELD;
    }
    for (size_t i = 0; i < made->count; i++) {
        if ((uint64_t)made->data_at[i] + made->data_len[i] > made->header_len) {
            return RTPW_BAD_FIELD;
        }
        total += made->data_len[i];
    }
    if (total != made->data_total) {
        return RTPW_BAD_FIELD;
    }
    walked it = walk(bytes, made->header_len);
    return it.cause != 0 ? it.cause : it.header_len < made->header_len ? RTPW_BAD_FIELD : RTPW_OK;
}

/* The header of so many bytes as that of a retransmission. */
static void repeat(uint8_t *bytes, size_t len, uint16_t original_number) {
    bytes[0] &= 0xDF;
    bytes[len] = (uint8_t)(original_number >> 8);
    bytes[len + 1] = (uint8_t)original_number;
}

/* Where a receiver's data begin: at times so that they end with all data, and at times past that. */
static size_t random_place(size_t size, size_t len) {
    uint64_t x = random_u64();
    size_t last = size >= len ? size - len : 0;
    switch (x % 16) {
    case 0: return SIZE_MAX - x / 16 % 40;
    case 1: return last + 1 + x / 16 % 8;
    case 2:
    case 3:
    case 4: return last;
    default: return random_below(last + 1);
    }
}

static void random_receivers(rtpw_routed_header *receivers, size_t count, const rtpw_template *made, size_t data_len) {
    for (size_t i = 0; i < count; i++) {
        fill(&receivers[i], sizeof *receivers);
        receivers[i].data_at = random_place(data_len, made->data_total);
        receivers[i].is_retransmission = (uint8_t)(random_u64() % 2 == 0 ? random_u64() : 0);
        receivers[i].clears_padding = (uint8_t)(random_u64() % 2 == 0 ? random_u64() : 0);
        random_fields(&receivers[i].fields);
    }
}

/* The header of one receiver behind those before it: what is told of it, and how many bytes it takes. */
static size_t write_header(const rtpw_template *made, const uint8_t *header, const uint8_t *data, size_t data_len,
                           rtpw_routed_header *it, size_t at, size_t size) {
    size_t own = it->data_at, needed = (size_t)made->header_len + (it->is_retransmission != 0 ? 2 : 0);
    uint8_t *to = headers_expected + at;
    it->at = at;
    it->len = 0;
    it->status = RTPW_OK;
    if ((it->fields.has_payload_type && it->fields.payload_type > 127) || own > data_len ||
        made->data_total > data_len - own) {
        it->status = RTPW_BAD_FIELD;
    } else if (needed > size - at) {
        it->status = RTPW_SHORT_BUFFER;
    }
    if (it->status != RTPW_OK) {
        return 0;
    }
    it->len = (uint32_t)needed;
    memcpy(to, header, made->header_len);
    set_fields(to, &it->fields);
    for (size_t j = 0; j < made->count; j++) {
        memcpy(to + made->data_at[j], data + own, made->data_len[j]);
        own += made->data_len[j];
    }
    if (it->clears_padding != 0) {
        to[0] &= 0xDF;
    }
    if (it->is_retransmission != 0) {
        repeat(to, made->header_len, it->original_number);
    }
    return needed;
}

/* Writes headers for receivers with the template, which may be torn, and the header, which may be any bytes. */
static void write_headers(const rtpw_template *made, const uint8_t *header, size_t header_size, const uint8_t *data,
                          size_t data_len) {
    static rtpw_routed_header before[MOST];
    size_t count = random_below(MOST + 1), len = made->header_len < 4000 ? made->header_len : 40;
    size_t size = random_below(4 * len + 2), at = 0;
    uint8_t *buf = block_in(&outputs, size);
    rtpw_routed_header *receivers = block_in(&receiver_memory, count * sizeof *receivers);
    fill(buf, size);
    if (size > 0) {
        memcpy(headers_expected, buf, size);
    }
    random_receivers(receivers, count, made, data_len);
    if (count > 0) {
        memcpy(before, receivers, count * sizeof *receivers);
    }
    int32_t status = template_status(made, header, header_size);
    CHECK(rtpw_write_headers(made, header, header_size, data, data_len, receivers, count, buf, size) == status);
    for (size_t i = 0; i < count && status == RTPW_OK; i++) {
        at += write_header(made, header, data, data_len, &before[i], at, size);
    }
    CHECK(count == 0 || memcmp(receivers, before, count * sizeof *receivers) == 0);
    CHECK(size == 0 || memcmp(buf, headers_expected, size) == 0);
}

/* The header alone, of which the last byte is the last of its room. */
static const uint8_t *header_alone(const uint8_t *header, size_t len) {
    uint8_t *copy = block_in(&copies, len);
    if (len > 0) {
        memcpy(copy, header, len);
    }
    return copy;
}

/* What a receiver gets as a retransmission is what is made of the packet that it got, with whose header the buffer begins. */
static void as_it_is_sent_again(const rtpw_template *made, const uint8_t *header, rtpw_routed_header *receiver,
                                const uint8_t *data, size_t data_len, uint8_t *buf, size_t size, size_t len) {
    static uint8_t written[LONGEST + 16 * 264];
    static rtpw_new_ids same;
    uint8_t padding = (uint8_t)(1 + random_below(5));
    size_t header_len = len, payload_len = random_below(8);
    for (int i = 1; i < 256; i++) {
        same.id[i] = (uint8_t)i;
    }
    receiver->is_retransmission = (uint8_t)(1 + random_below(255));
    receiver->original_number = (uint16_t)(buf[2] * 256 + buf[3]);
    receiver->fields.has_ssrc = receiver->fields.has_payload_type = receiver->fields.has_sequence_number = 1;
    receiver->fields.sequence_number = (uint16_t)random_u64();
    receiver->fields.ssrc = (uint32_t)random_u64();
    fill(buf + len, payload_len + padding);
    buf[len + payload_len + padding - 1] = padding;
    len += payload_len + ((buf[0] & 0x20) != 0 ? padding : 0);
    CHECK(rtpw_to_retransmission(buf, size, &len, receiver->fields.ssrc, receiver->fields.payload_type,
                                 receiver->fields.sequence_number, &same) == RTPW_OK);
    CHECK(rtpw_write_headers(made, header, made->header_len, data, data_len, receiver, 1, written, header_len + 1) ==
          RTPW_OK);
    CHECK(receiver->status == RTPW_SHORT_BUFFER);
    CHECK(rtpw_write_headers(made, header, made->header_len, data, data_len, receiver, 1, written, header_len + 2) ==
          RTPW_OK);
    CHECK(receiver->status == RTPW_OK && len == header_len + 2 + payload_len);
    CHECK(memcmp(written, buf, header_len + 2) == 0);
}

/* What one receiver gets is what the calls for one packet make. */
static void as_the_calls_do(const rtpw_template *made, const uint8_t *header, size_t len, const rtpw_new_ids *ids,
                            const uint8_t *data, size_t data_len, const rtpw_element *elements, size_t count,
                            uint8_t allowed) {
    static uint8_t by_hand[2 * LONGEST + 16 * 264], written[LONGEST + 16 * 264];
    walked it = walk(packet_before, len);
    rtpw_routed_header receiver;
    size_t data_at[16], hand_len = 0;
    memset(&receiver, 0, sizeof receiver);
    if (made->data_total > data_len) {
        return;
    }
    receiver.data_at = random_below(data_len - made->data_total + 1);
    random_fields(&receiver.fields);
    receiver.fields.payload_type &= 0x7F;
    for (size_t i = 0, at = receiver.data_at; i < count; i++) {
        data_at[i] = at;
        at += elements[i].data_len;
    }
    CHECK(by_calls(it.header_len, &receiver.fields, ids, data, elements, data_at, count, allowed, by_hand,
                   sizeof by_hand, &hand_len) == RTPW_OK);
    header = header_alone(header, made->header_len);
    CHECK(rtpw_write_headers(made, header, made->header_len, data, data_len, &receiver, 1, written, sizeof written) ==
          RTPW_OK);
    CHECK(receiver.status == RTPW_OK && receiver.at == 0 && receiver.len == hand_len && hand_len == made->header_len);
    CHECK(memcmp(written, by_hand, hand_len) == 0);
    as_it_is_sent_again(made, header, &receiver, data, data_len, by_hand, sizeof by_hand, hand_len);
}

static void tear(rtpw_template *made, uint8_t *header, size_t size) {
    uint64_t x = random_u64();
    switch (x % 8) {
    case 0: made->count = (uint8_t)(x >> 8); break;
    case 1: made->header_len = (uint32_t)(x >> 8); break;
    case 2: made->header_len += (uint32_t)(x >> 8) % 5 - 2; break;
    case 3: made->data_at[x >> 8 & 15] = (uint32_t)(x >> 32); break;
    case 4: made->data_at[x >> 8 & 3] += (uint32_t)(x >> 32) % 9 - 4; break;
    case 5: made->data_len[x >> 8 & 3] = (uint8_t)(x >> 32); break;
    case 6: made->data_total = (uint16_t)(x >> 32); break;
    default: fill(made, sizeof *made); break;
    }
    if (x / 16 % 16 == 0 && size > 0) {
        random_packet(header, size);
    }
}

/* An element that is put, mostly of an id of its own: at times its data end with all data. */
static void random_element(rtpw_element *element, size_t data_len, size_t i) {
    uint64_t x = random_u64();
    fill(element, sizeof *element);
    element->data_at = x % 32 == 0 ? random_u64() : random_below(data_len + 1);
    element->data_len = random_below((element->data_at <= data_len ? data_len - element->data_at : 0) + 1);
    element->data_len = x / 32 % 64 == 0 ? element->data_len + random_below(300) : element->data_len % 20;
    if (x / 2048 % 4 == 0 && element->data_len <= data_len) {
        element->data_at = data_len - element->data_len;
    }
    element->id = (uint8_t)(x / 8192 % 32 == 0 ? random_id() : 1 + random_below(6) + 6 * i);
}

/* Why no group is prepared of these, or RTPW_OK. */
static int32_t group_status(const rtpw_element *elements, size_t count, unsigned allowed) {
    if (allowed > 2 || count > 16) {
        return RTPW_BAD_FIELD;
    }
    for (size_t i = 0; i < count; i++) {
        if (elements[i].data_len > 255) {
            return RTPW_BAD_FIELD;
        }
        for (size_t j = 0; j < i; j++) {
            if (elements[i].id == elements[j].id) {
                return RTPW_BAD_FIELD;
            }
        }
    }
    for (size_t i = 0; i < count; i++) {
        if (elements[i].id == 0) {
            return RTPW_BAD_ID;
        }
    }
    return RTPW_OK;
}

static void tear_group(rtpw_group *group) {
    uint64_t x = random_u64();
    uint8_t *bytes = (uint8_t *)group;
    for (uint64_t i = 0; i <= x % 3; i++, x = random_u64()) {
        switch (x / 4 % 4) {
        case 0: bytes[x / 16 % sizeof *group] = (uint8_t)(x >> 56); break;
        case 1: bytes[512 + x / 16 % (sizeof *group - 512)] += (uint8_t)(x >> 56) % 3; break;
        case 2: group->numbers[group->element_ids[x / 16 % 16]] = (uint8_t)(x >> 56) % 20; break;
        default: group->new_ids[x / 16 % 256] = (uint8_t)(x >> 56); break;
        }
    }
}

/* The same of a group that is prepared: it makes what rtpw_make_template makes with zeros as the data. */
static void prepare(const uint8_t *packet, size_t len, const rtpw_new_ids *ids, const rtpw_element *given, size_t count,
                    uint8_t allowed, size_t size) {
    rtpw_element *shapes = block_in(&shape_memory, count * sizeof *shapes), zeros[20];
    rtpw_group *group = block_in(&group_memory, sizeof *group), before;
    rtpw_template *made = block_in(&mades, sizeof *made), wanted, as_it_was;
    uint8_t *buf = block_in(&rooms, size);
    for (size_t i = 0; i < count; i++) {
        shapes[i] = given[i];
        shapes[i].data_at = random_u64();
        zeros[i] = given[i];
        zeros[i].data_at = 0;
    }
    fill(group, sizeof *group);
    memcpy(&before, group, sizeof before);
    int32_t status = group_status(shapes, count, allowed);
    CHECK(rtpw_prepare_group(ids, shapes, count, allowed, group) == status);
    fill(made, sizeof *made);
    memcpy(&wanted, made, sizeof wanted);
    memcpy(&as_it_was, made, sizeof as_it_was);
    if (status != RTPW_OK) {
        CHECK(memcmp(group, &before, sizeof before) == 0);
    } else {
        memset(data_before, 0, sizeof data_before);
        status = make(len, ids, sizeof data_before, zeros, count, allowed, size, &wanted);
        memcpy(&before, group, sizeof before);
        CHECK(rtpw_make_from_group(group, packet, len, buf, size, made) == status);
        CHECK(memcmp(group, &before, sizeof before) == 0);
        if (status == RTPW_OK) {
            CHECK(memcmp(made, &wanted, offsetof(rtpw_template, data_len) + 16) == 0);
            CHECK(memcmp(buf, expected, made->header_len) == 0);
        } else {
            CHECK(memcmp(made, &as_it_was, sizeof as_it_was) == 0);
        }
        tear_group(group);
    }
    /* Whatever numbers it is given, it writes nothing but the buffer, and tells of a header in it or nothing. */
    memcpy(made, &as_it_was, sizeof as_it_was);
    status = rtpw_make_from_group(group, packet, len, buf, size, made);
    CHECK(status == RTPW_OK ? made->header_len <= size && made->count <= 16
                            : memcmp(made, &as_it_was, sizeof as_it_was) == 0);
}

void routed_round(void) {
    if (packets.size == 0) {
        shape_memory = memory_of(20 * sizeof(rtpw_element));
        group_memory = memory_of(sizeof(rtpw_group));
        packets = memory_of(LONGEST);
        ids_memory = memory_of(sizeof(rtpw_new_ids));
        datas = memory_of(DATA);
        element_memory = memory_of(20 * sizeof(rtpw_element));
        rooms = memory_of(LONGEST + 16 * 264);
        mades = memory_of(sizeof(rtpw_template));
        receiver_memory = memory_of(MOST * sizeof(rtpw_routed_header));
        outputs = memory_of(4 * LONGEST);
        copies = memory_of(LONGEST + 16 * 264);
    }
    uint64_t x = random_u64();
    size_t len = random_len(), data_len = random_below(x % 64 == 0 ? DATA : 60);
    size_t count = x / 64 % 64 == 0 ? random_below(20) : random_below(4);
    size_t size = len + (x / 4096 % 4 == 0 ? random_below(30) : random_below(16 * 264));
    size = x / 16384 % 16 == 0 ? random_below(40) : size < LONGEST ? size : LONGEST;
    uint8_t allowed = (uint8_t)(x / 262144 % 32 == 0 ? x >> 56 : x / 8388608 % 3);
    random_packet(packet_before, len);
    walked it = walk(packet_before, len);
    if (it.cause == 0 && x >> 59 % 2 == 0) {
        len = it.header_len; /* which is all that is looked at */
    }
    uint8_t *packet = block_in(&packets, len), *data = block_in(&datas, data_len), *buf = block_in(&rooms, size);
    rtpw_new_ids *ids = block_in(&ids_memory, sizeof *ids), same_ids;
    rtpw_element *elements = block_in(&element_memory, count * sizeof *elements);
    rtpw_template *made = block_in(&mades, sizeof *made), wanted, before;
    fill(data, data_len);
    if (len > 0) {
        memcpy(packet, packet_before, len);
    }
    if (data_len > 0) {
        memcpy(data_before, data, data_len);
    }
    for (int i = 0; i < 256; i++) {
        ids->id[i] = random_id();
        ids->id[i] = ids->id[i] > 14 && random_u64() % 8 != 0 ? 0 : ids->id[i];
    }
    memcpy(&same_ids, ids, sizeof same_ids);
    for (size_t i = 0; i < count; i++) {
        random_element(&elements[i], data_len, i);
    }
    fill(buf, size);
    fill(made, sizeof *made);
    memcpy(&before, made, sizeof before);
    memcpy(&wanted, made, sizeof wanted);
    int32_t status = make(len, &same_ids, data_len, elements, count, allowed, size, &wanted);
    CHECK(rtpw_make_template(packet, len, ids, data, data_len, elements, count, allowed, buf, size, made) == status);
    CHECK(len == 0 || memcmp(packet, packet_before, len) == 0);
    CHECK(data_len == 0 || memcmp(data, data_before, data_len) == 0);
    CHECK(memcmp(ids, &same_ids, sizeof same_ids) == 0);
    if (status == RTPW_OK) {
        CHECK(memcmp(made, &wanted, offsetof(rtpw_template, data_len) + 16) == 0);
        CHECK(memcmp(buf, expected, made->header_len) == 0);
        as_the_calls_do(made, buf, len, ids, data, data_len, elements, count, allowed);
    } else {
        CHECK(memcmp(made, &before, sizeof before) == 0);
    }
    if (status != RTPW_OK || x >> 60 < 6) {
        tear(made, buf, size);
    }
    if (size > 0) {
        memcpy(room_before, buf, size);
    }
    write_headers(made, buf, size, data, data_len);
    CHECK(size == 0 || memcmp(buf, room_before, size) == 0);
    prepare(packet, len, ids, elements, count, allowed, size);
    CHECK(len == 0 || memcmp(packet, packet_before, len) == 0);
    CHECK(memcmp(ids, &same_ids, sizeof same_ids) == 0);
}
