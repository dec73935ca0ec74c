/* Tables of which one place alone is taken, each place in turn and each value that decides over a form, and elements of
 * each short length: a check of many places at once has to look at each of them, and at its bounds. */
#include "hostile.h"

#include "walk.h"

enum { ROOM = 1200, MOST_WRITTEN = 65612 };

static memory maps, headers, allocations, packets, copies, ids_memory, datas, receivers_memory;

/* A number at which a form ends or begins, or any. */
static uint8_t id_at_a_bound(void) {
    static const uint8_t bounds[] = {1, 2, 13, 14, 15, 16, 17, 127, 128, 254, 255};
    return random_u64() % 8 == 0 ? (uint8_t)(1 + random_below(255)) : bounds[random_below(sizeof bounds)];
}

static size_t len_at_a_bound(void) {
    static const uint8_t bounds[] = {0, 1, 2, 3, 4, 5, 7, 8, 9, 15, 16, 17, 18, 31, 32, 33, 254, 255};
    return bounds[random_below(sizeof bounds)];
}

static rtpw_map *map_of(uint8_t id, uint8_t kind) {
    rtpw_map *map = block_in(&maps, sizeof *map);
    memset(map, 0, sizeof *map);
    map->kind[id] = kind;
    return map;
}

static rtpw_new_ids *ids_of(uint8_t id, uint8_t to) {
    rtpw_new_ids *ids = block_in(&ids_memory, sizeof *ids);
    memset(ids, 0, sizeof *ids);
    ids->id[id] = to;
    return ids;
}

/* One id means one kind: what a header is written as, what of it is left out, and what is read again. */
static void one_id(uint8_t id, uint8_t kind) {
    static uint8_t buf[MOST_WRITTEN], expected[MOST_WRITTEN];
    rtpw_map *map = map_of(id, kind);
    CHECK(rtpw_id_of(map, kind) == id && rtpw_map_get(map, id) == kind);
    CHECK(rtpw_id_of(map, (uint8_t)(kind + 1)) == 0 && rtpw_id_of(map, (uint8_t)(kind - 1)) == 0);
    rtpw_header *header = block_in(&headers, sizeof *header), again;
    do {
        random_header(header);
    } while (!is_given(header));
    header->has_extension = 1;
    uint32_t left = 0;
    size_t len = 0, wanted = write_fixed(header, true, expected);
    wanted += write_block(map, &header->values, NULL, 0, expected + wanted);
    CHECK(rtpw_left_out(map, header, &left) == RTPW_OK && left == kinds_left(map, header, false));
    CHECK(rtpw_wire_len(map, header, &len) == RTPW_OK && len == wanted);
    CHECK(rtpw_write(map, header, buf, sizeof buf, &len) == RTPW_OK && len == wanted);
    CHECK(memcmp(buf, expected, wanted) == 0);
    CHECK(rtpw_parse(buf, wanted, map, &again) == RTPW_OK && again.header_len == wanted);
}

/* The same where layers are written, of one stream with one rate: three bytes and the rate's. */
static void one_id_with_layers(uint8_t id, uint8_t kind) {
    static uint8_t buf[MOST_WRITTEN], expected[MOST_WRITTEN];
    uint64_t rate = random_below(2) == 0 ? random_below(128) : 128 + random_below(16000);
    const uint8_t data[] = {0x01, 0x00, (uint8_t)(rate < 128 ? rate : (rate & 0x7F) | 0x80), (uint8_t)(rate >> 7)};
    size_t data_len = rate < 128 ? 3 : 4, len = 0;
    rtpw_map *map = map_of(id, kind);
    rtpw_header *header = block_in(&headers, sizeof *header), again;
    rtpw_layers *layers = block_in(&allocations, sizeof *layers), read;
    memset(layers, 0, sizeof *layers);
    layers->count = layers->streams[0].count = layers->streams[0].layers[0].rates = 1;
    layers->streams[0].layers[0].kbps[0] = rate;
    do {
        random_header(header);
    } while (!is_given(header));
    header->has_extension = 1;
    uint32_t left = 0;
    size_t wanted = write_fixed(header, true, expected);
    wanted += write_block(map, &header->values, data, data_len, expected + wanted);
    CHECK(rtpw_left_out_layers(map, header, layers, &left) == RTPW_OK && left == kinds_left(map, header, true));
    CHECK(rtpw_wire_len_layers(map, header, layers, &len) == RTPW_OK && len == wanted);
    CHECK(rtpw_write_layers(map, header, layers, buf, sizeof buf, &len) == RTPW_OK && len == wanted);
    CHECK(memcmp(buf, expected, wanted) == 0);
    CHECK(rtpw_parse_layers(buf, wanted, map, &again, &read) == RTPW_OK && again.header_len == wanted);
}

/* A packet whose block has one element, of zeros but for its last byte, and 8 bytes of payload; how many bytes it has. */
static size_t packet_with(uint8_t *bytes, int form, uint8_t id, size_t data_len) {
    size_t header = form == 1 ? 1 : 2, words = (header + data_len + 3) / 4;
    memset(bytes, 0, 16 + 4 * words + 8);
    memcpy(bytes, "\x90\x60\x12\x34\x00\x00\x00\x64\x00\x00\x00\x2C", 12);
    bytes[12] = form == 1 ? 0xBE : 0x10;
    bytes[13] = form == 1 ? 0xDE : 0x00;
    bytes[15] = (uint8_t)words;
    bytes[16] = (uint8_t)(form == 1 ? id * 16 + data_len - 1 : id);
    if (form == 2) {
        bytes[17] = (uint8_t)data_len;
    }
    if (data_len != 0) {
        bytes[16 + header + data_len - 1] = 0x5A;
    }
    memset(bytes + 16 + 4 * words, 0x77, 8);
    return 16 + 4 * words + 8;
}

/* By the calls for one packet, one after another, without its payload: the status, and its length. */
static int32_t renumbered(uint8_t *bytes, size_t *len, const rtpw_new_ids *ids, uint8_t allowed) {
    int32_t status = rtpw_renumber(bytes, *len, ids);
    if (status == RTPW_LONG_ID && allowed != RTPW_ONE_BYTE_FORM) {
        status = rtpw_change_form(bytes, ROOM, len, RTPW_TWO_BYTE_FORM);
        status = status != RTPW_OK ? status : rtpw_renumber(bytes, *len, ids);
    }
    return status != RTPW_OK ? status : rtpw_compact(bytes, ROOM, len);
}

/* One id has a new one: the header for receivers, with and without a group, is what the calls for one packet make. */
static void one_new_id(uint8_t id, uint8_t to) {
    static uint8_t made_of[2][ROOM];
    int form = id <= 14 && random_u64() % 2 == 0 ? 1 : 2;
    uint8_t allowed = (uint8_t)random_below(3), *bytes = block_in(&packets, ROOM), *copy = block_in(&copies, ROOM);
    size_t len = packet_with(bytes, form, id, form == 1 ? 1 + random_below(16) : len_at_a_bound()), now = len - 8;
    rtpw_new_ids *ids = ids_of(random_u64() % 8 == 0 ? (uint8_t)random_u64() : id, to);
    rtpw_template made = {0}, of_group = {0};
    rtpw_group group;
    memcpy(copy, bytes, len);
    int32_t status = renumbered(copy, &now, ids, allowed);
    CHECK(rtpw_make_template(bytes, len, ids, NULL, 0, NULL, 0, allowed, made_of[0], ROOM, &made) == status);
    CHECK(rtpw_prepare_group(ids, NULL, 0, allowed, &group) == RTPW_OK);
    CHECK(rtpw_make_from_group(&group, bytes, len, made_of[1], ROOM, &of_group) == status);
    if (status == RTPW_OK) {
        CHECK(made.header_len == now && memcmp(made_of[0], copy, now) == 0);
        CHECK(of_group.header_len == now && memcmp(made_of[1], copy, now) == 0);
    }
    now = len;
    memcpy(copy, bytes, len);
    if (rtpw_to_retransmission(copy, ROOM, &now, 45, 97, 9, ids) == RTPW_OK) {
        CHECK(rtpw_from_retransmission(copy, ROOM, &now, 44, 96, ids) != RTPW_SHORT_BUFFER);
    }
}

/* New ids between maps of one id each. */
static void one_pair(uint8_t id, uint8_t to, uint8_t kind) {
    rtpw_map receiver;
    rtpw_new_ids ids;
    memset(&receiver, 0, sizeof receiver);
    receiver.kind[to] = kind;
    rtpw_new_ids_between(map_of(id, kind), &receiver, &ids);
    for (int i = 0; i < 256; i++) {
        CHECK(ids.id[i] == (i == id ? to : 0));
    }
    receiver.kind[to] = (uint8_t)(kind + 1);
    rtpw_new_ids_between(map_of(id, kind), &receiver, &ids);
    CHECK(ids.id[id] == 0);
}

/* An element of a short length is put or added, and is there; and by a template with each receiver's data. */
static void one_element(uint8_t id, uint8_t other) {
    static uint8_t header[ROOM], written[ROOM + 2];
    uint8_t allowed = (uint8_t)random_below(3), *bytes = block_in(&packets, ROOM), *copy = block_in(&copies, ROOM);
    int form = other <= 14 && random_u64() % 2 == 0 ? 1 : 2;
    size_t len = packet_with(bytes, form, other, form == 1 ? 1 + random_below(16) : len_at_a_bound());
    size_t now = len, added = len, data_len = len_at_a_bound();
    uint8_t *data = block_in(&datas, data_len);
    fill(data, data_len);
    memcpy(copy, bytes, len);
    int32_t status = rtpw_put_element(copy, ROOM, &now, id, data, data_len, allowed);
    if (status == RTPW_OK) {
        rtpw_packet packet;
        rtpw_element found;
        CHECK(rtpw_packet_parse(copy, now, &packet) == RTPW_OK && packet.payload_len == 8);
        const uint8_t *body = copy + packet.body_at;
        CHECK(rtpw_last_element(body, packet.body_len, packet.block_form, id, &found) == RTPW_OK);
        CHECK(found.data_len == data_len && (data_len == 0 || memcmp(body + found.data_at, data, data_len) == 0));
    }
    memcpy(copy, bytes, len);
    CHECK((rtpw_add_element(copy, ROOM, &added, id, data, data_len, allowed) == RTPW_OK) == (status == RTPW_OK));

    rtpw_element element = {0, data_len, 0, id};
    rtpw_template made;
    rtpw_new_ids *ids = ids_of(other, other);
    int32_t of_template = rtpw_make_template(bytes, len, ids, data, data_len, &element, 1, allowed, header, ROOM, &made);
    CHECK((of_template == RTPW_OK) == (status == RTPW_OK));
    if (status == RTPW_OK) {
        CHECK(made.data_len[0] == data_len && made.data_total == data_len);
        CHECK(data_len == 0 || memcmp(header + made.data_at[0], data, data_len) == 0);
        rtpw_routed_header *receiver = block_in(&receivers_memory, sizeof *receiver);
        memset(receiver, 0, sizeof *receiver);
        int32_t of_headers = rtpw_write_headers(&made, header, ROOM, data, data_len, receiver, 1, written, sizeof written);
        CHECK(of_headers == RTPW_OK);
        CHECK(receiver->len == made.header_len && memcmp(written, header, made.header_len) == 0);
        made.count = 17;
        of_headers = rtpw_write_headers(&made, header, ROOM, data, data_len, receiver, 1, written, sizeof written);
        CHECK(of_headers == RTPW_BAD_FIELD);
    }
}

void places_round(void) {
    if (maps.size == 0) {
        maps = memory_of(sizeof(rtpw_map));
        headers = memory_of(sizeof(rtpw_header));
        allocations = memory_of(sizeof(rtpw_layers));
        packets = memory_of(ROOM);
        copies = memory_of(ROOM);
        ids_memory = memory_of(sizeof(rtpw_new_ids));
        datas = memory_of(255);
        receivers_memory = memory_of(sizeof(rtpw_routed_header));
    }
    uint8_t id = (uint8_t)(1 + random_below(255)), kind = (uint8_t)(1 + random_below(20));
    one_id(id, kind);
    one_id_with_layers(id, random_u64() % 2 == 0 ? RTPW_KIND_LAYERS : kind);
    one_new_id(id, id_at_a_bound());
    one_new_id(id_at_a_bound(), id);
    for (uint8_t i = 1; i < 16; i++) {
        /* Each means one kind alone, in twenty rounds each kind. */
        one_id(i, (uint8_t)(1 + round_number % 20));
        one_id_with_layers(i, (uint8_t)(1 + round_number % 20));
    }
    for (unsigned i = 0; i < 32; i++) {
        /* Each in turn gets the last number of the one-byte form, or the first that it hasn't. */
        unsigned it = (unsigned)(round_number % 16) * 16 + i / 2;
        one_new_id((uint8_t)(it == 0 ? 1 : it), (uint8_t)(14 + i % 2));
    }
    one_pair(id, id_at_a_bound(), kind);
    one_element(id, id_at_a_bound());
    one_element(id_at_a_bound(), id);
}
