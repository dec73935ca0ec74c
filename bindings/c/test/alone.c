/* What stands alone: one id of a map, one new id that the one-byte form can't carry, one count that is out of its
 * range; each wherever it may stand. The expected bytes are worked out by hand from RFC 3550, 5.1, RFC 8285, 4.2
 * and 4.3, and the layouts of the extensions. */
#include "../rtp_wire.h"

#include <stdio.h>
#include <string.h>

static int failed = 0;

#define CHECK(holds) \
    do { \
        if (!(holds)) { \
            printf("line %d: %s\n", __LINE__, #holds); \
            failed = 1; \
        } \
    } while (0)

enum { LAST_KIND = RTPW_KIND_NTP_56, KINDS_WITH_VALUES = 13 };

/* The data of each kind's element with the values of the header below. */
static const struct {
    uint8_t len;
    uint8_t data[13];
} ELEMENTS[KINDS_WITH_VALUES + 1] = {
    {0, {0}},
    {3, {6, 0, 0}}, /* 1.5 s */
    {8, {0, 0, 0, 1, 0, 0, 0, 2}},
    {1, {0x8A}},
    {4, {1, 2, 3, 4}},
    {1, {2}}, /* 180 degrees */
    {2, {0xFF, 0xFE}},
    {3, {0, 0x1F, 0xFF}}, /* 1/100 and 4095/100 s */
    {1, {1}},
    {13, {2, 0, 1, 0, 2, 0, 3, 0, 4, 0, 0, 0, 0}},
    {2, {'h', 'i'}},
    {1, {'x'}},
    {3, {'a', 'u', 'd'}},
    {4, {5, 6, 7, 8}},
};

static void set_values(rtpw_values *it) {
    memset(it, 0, sizeof *it);
    it->send_time = 1500000;
    it->capture_time = ((uint64_t)1 << 32) + 2;
    it->audio_level = -10;
    it->voice_activity = 1;
    it->transmission_offset = 0x01020304;
    it->video_orientation = 180;
    it->transport_number = 0xFFFE;
    it->playout_delay_min.ticks = 1;
    it->playout_delay_max.ticks = 4095;
    it->playout_delay_min.hertz = it->playout_delay_max.hertz = 100;
    it->video_content_type = 1;
    it->encode_start = 1;
    it->encode_finish = 2;
    it->packetize_complete = 3;
    it->last_left_pacer = 4;
    it->timing_flags = 2;
    memcpy(it->rid, "hi", 3);
    memcpy(it->repaired_rid, "x", 2);
    memcpy(it->mid, "aud", 4);
    it->frame_marking = 0x05060708;
    it->has_send_time = it->has_capture_time = it->has_audio_level = it->has_voice_activity = 1;
    it->has_transmission_offset = it->has_video_orientation = it->has_transport_number = 1;
    it->has_playout_delay_min = it->has_playout_delay_max = it->has_video_content_type = it->has_video_timing = 1;
    it->has_rid = it->has_repaired_rid = it->has_mid = it->has_frame_marking = 1;
}

/* The block of one element: how many bytes it has. */
static size_t block_of(unsigned id, unsigned kind, uint8_t *block) {
    size_t len = ELEMENTS[kind].len, at = 4;
    memset(block, 0, 24);
    block[0] = id <= 14 ? 0xBE : 0x10;
    block[1] = id <= 14 ? 0xDE : 0;
    if (id <= 14) {
        block[at++] = (uint8_t)(id << 4 | (len - 1));
    } else {
        block[at++] = (uint8_t)id;
        block[at++] = (uint8_t)len;
    }
    memcpy(block + at, ELEMENTS[kind].data, len);
    block[3] = (uint8_t)((at + len - 1) / 4);
    return 4 + 4 * (size_t)block[3];
}

static void one_id(void) {
    static rtpw_map map;
    static rtpw_header header;
    const uint32_t all = 0x3FFE; /* the kinds 1 to 13 */
    unsigned id, kind;
    header.has_extension = 1;
    set_values(&header.values);
    for (id = 1; id < 256; id++) {
        for (kind = 1; kind <= LAST_KIND; kind++) {
            uint8_t bytes[64], block[24];
            uint32_t kinds = 0;
            size_t len = 0, block_len;
            map.kind[id] = (uint8_t)kind;
            CHECK(rtpw_left_out(&map, &header, &kinds) == RTPW_OK && kinds == (all & ~((uint32_t)1 << kind)));
            CHECK(rtpw_id_of(&map, (uint8_t)kind) == id && rtpw_id_of(&map, (uint8_t)(kind % LAST_KIND + 1)) == 0);
            if (kind <= KINDS_WITH_VALUES) {
                block_len = block_of(id, kind, block);
                CHECK(rtpw_wire_len(&map, &header, &len) == RTPW_OK && len == 12 + block_len);
                CHECK(rtpw_write(&map, &header, bytes, sizeof bytes, &len) == RTPW_OK && len == 12 + block_len);
                CHECK(memcmp(bytes + 12, block, block_len) == 0);
            }
        }
        map.kind[id] = 0;
    }
}

/* Beside a level an id of a kind with a value asks for the two-byte form where it is above 14, and each id of layers
 * does; one of a kind without a value asks for nothing. */
static void one_id_beside_a_level(void) {
    static rtpw_map map;
    static rtpw_header header;
    unsigned id, kind;
    header.has_extension = header.values.has_audio_level = header.values.has_voice_activity = 1;
    map.kind[1] = RTPW_KIND_AUDIO_LEVEL;
    for (id = 2; id < 256; id++) {
        for (kind = 1; kind <= LAST_KIND; kind++) {
            unsigned is_long =
                kind == RTPW_KIND_LAYERS || (id > 14 && kind < RTPW_KIND_LAYERS && kind != RTPW_KIND_COLOR_SPACE);
            uint8_t bytes[32];
            size_t len = 0;
            map.kind[id] = (uint8_t)kind;
            if (kind != RTPW_KIND_COLOR_SPACE && kind != RTPW_KIND_AUDIO_LEVEL) {
                CHECK(rtpw_write(&map, &header, bytes, sizeof bytes, &len) == RTPW_OK &&
                      bytes[12] == (is_long ? 0x10 : 0xBE));
            }
        }
        map.kind[id] = 0;
    }
}

/* Of the ids 1 to 14 one gets the id 15, and all others keep theirs. */
static void one_new_id(void) {
    uint8_t packet[] = {0x90, 96, 0, 5, 0, 0, 0, 100, 0, 0, 0, 44, 0xBE, 0xDE, 0, 1, 0x10, 0xAA, 0, 0, 0, 9};
    unsigned id, other;
    for (id = 1; id < 15; id++) {
        rtpw_new_ids ids;
        memset(&ids, 0, sizeof ids);
        for (other = 1; other < 256; other++) {
            ids.id[other] = (uint8_t)(other == id ? 15 : other);
        }
        for (other = 1; other < 15; other++) {
            const int32_t due = other == id ? RTPW_LONG_ID : RTPW_OK;
            uint8_t copy[32], buf[320];
            rtpw_template made;
            rtpw_group group;
            size_t len = sizeof packet;
            packet[16] = (uint8_t)(other << 4);
            memcpy(copy, packet, sizeof packet);
            CHECK(rtpw_renumber(copy, len, &ids) == due && memcmp(copy, packet, len) == 0);
            CHECK(rtpw_to_retransmission(copy, sizeof copy, &len, 45, 97, 7, &ids) == due);
            memcpy(copy, packet, sizeof packet);
            len = sizeof packet;
            CHECK(rtpw_from_retransmission(copy, sizeof copy, &len, 45, 97, &ids) == due);
            CHECK(rtpw_make_template(packet, sizeof packet, &ids, NULL, 0, NULL, 0, RTPW_ONE_BYTE_FORM, buf, sizeof buf,
                                     &made) == due);
            CHECK(rtpw_prepare_group(&ids, NULL, 0, RTPW_ANY_FORM, &group) == RTPW_OK);
            CHECK(rtpw_make_from_group(&group, packet, sizeof packet, buf, sizeof buf, &made) == RTPW_OK);
            CHECK(made.header_len == 20 && buf[12] == (other == id ? 0x10 : 0xBE));
            CHECK(other == id ? buf[16] == 15 && buf[17] == 1 && buf[18] == 0xAA : memcmp(buf, packet, 20) == 0);
        }
    }
}

static void full(rtpw_layers *layers) {
    unsigned stream, layer;
    memset(layers, 0, sizeof *layers);
    layers->count = 4;
    for (stream = 0; stream < 4; stream++) {
        layers->streams[stream].count = 4;
        for (layer = 0; layer < 4; layer++) {
            layers->streams[stream].layers[layer].rates = 4;
        }
    }
}

static void one_count(void) {
    static rtpw_map map;
    static rtpw_header header;
    static rtpw_layers layers;
    uint8_t buf[512];
    size_t len = 0;
    uint32_t kinds;
    unsigned place;
    map.kind[9] = RTPW_KIND_LAYERS;
    header.has_extension = 1;
    full(&layers);
    CHECK(rtpw_wire_len_layers(&map, &header, &layers, &len) == RTPW_OK);
    for (place = 0; place < 22; place++) {
        rtpw_stream *stream = &layers.streams[place % 4];
        full(&layers);
        if (place < 16) {
            stream->layers[place / 4].rates = 5;
        } else if (place < 20) {
            stream->count = 5;
        } else if (place == 20) {
            layers.count = 5;
        } else {
            layers.current = 4;
        }
        CHECK(rtpw_wire_len_layers(&map, &header, &layers, &len) == RTPW_BAD_FIELD);
        CHECK(rtpw_write_layers(&map, &header, &layers, buf, sizeof buf, &len) == RTPW_BAD_FIELD);
        CHECK(rtpw_left_out_layers(&map, &header, &layers, &kinds) == RTPW_BAD_FIELD);
    }
}

int main(void) {
    one_id();
    one_id_beside_a_level();
    one_new_id();
    one_count();
    return failed;
}
