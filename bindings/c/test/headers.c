/* The calls on whole headers, maps and new ids. The expected values are worked out by hand from RFC 3550,
 * 5.1, RFC 8285, 4.2 and 4.3, and the documents of the extensions. */
#include "../rtp_wire.h"

#include <stdio.h>
#include <string.h>

static int failed = 0;

#define CHECK(holds) \
    do { \
        if (!(holds)) { \
            printf("line %d: %s\n", __LINE__, #holds); \
            failed = 1; \
        } \
    } while (0)

/* V=2, P, X, CC=1; M, PT=33; 47,000; 10,000; 44; the source 9; a block of ten words in the one-byte form:
 * 1 "audio-1" (a mid), 2 (40 s: 2^18 * 40), 3 (level 10 with voice), 4 (min 50 ms, max 1 s), 5 (270 degrees),
 * 6 (a capture time and its offset). */
static const uint8_t SAMPLE[62] = {
    0xB1, 0xA1, 0xB7, 0x98, 0x00, 0x00, 0x27, 0x10, 0x00, 0x00, 0x00, 0x2C, 0x00, 0x00, 0x00, 0x09,
    0xBE, 0xDE, 0x00, 0x0A, 0x16, 'a',  'u',  'd',  'i',  'o',  '-',  '1',  0x22, 0xA0, 0x00, 0x00,
    0x30, 0x8A, 0x42, 0x00, 0x50, 0x64, 0x50, 0x01, 0x6F, 1,    2,    3,    4,    5,    6,    7,
    8,    0xFF, 0xFF, 0xFF, 0xFF, 0xFF, 0xFF, 0xFF, 0xFE, 0x00, 0x00, 0x00, 0x07, 0x01};

static rtpw_map sample_map(void) {
    static const uint8_t kinds[7] = {RTPW_KIND_NONE,
                                     RTPW_KIND_MID,
                                     RTPW_KIND_ABS_SEND_TIME,
                                     RTPW_KIND_AUDIO_LEVEL,
                                     RTPW_KIND_PLAYOUT_DELAY,
                                     RTPW_KIND_VIDEO_ORIENTATION,
                                     RTPW_KIND_ABS_CAPTURE_TIME};
    rtpw_map map;
    memset(&map, 0, sizeof map);
    memcpy(map.kind, kinds, sizeof kinds);
    return map;
}

static void is_parsed(void) {
    rtpw_map map = sample_map();
    rtpw_header header;
    memset(&header, 0xA5, sizeof header);
    CHECK(rtpw_parse(SAMPLE, sizeof SAMPLE, &map, &header) == RTPW_OK);
    CHECK(header.header_len == 60);
    CHECK(header.timestamp == 10000);
    CHECK(header.ssrc == 44);
    CHECK(header.csrc[0] == 9);
    CHECK(header.csrc[1] == 0 && header.csrc[14] == 0);
    CHECK(header.sequence_number == 47000);
    CHECK(header.payload_type == 33);
    CHECK(header.csrc_count == 1);
    CHECK(header.marker == 1);
    CHECK(header.has_padding == 1);
    CHECK(header.has_extension == 1);
    CHECK(header.values.has_mid == 1);
    CHECK(strcmp(header.values.mid, "audio_1") == 0);
    CHECK(header.values.has_rid == 0 && header.values.rid[0] == '\0');
    CHECK(header.values.send_time == 40000000);
    CHECK(header.values.audio_level == -10 && header.values.voice_activity == 1);
    CHECK(header.values.has_playout_delay_min == 1 && header.values.has_playout_delay_max == 1);
    CHECK(header.values.playout_delay_min.ticks == 5 && header.values.playout_delay_min.hertz == 100);
    CHECK(header.values.playout_delay_max.ticks == 100 && header.values.playout_delay_max.hertz == 100);
    CHECK(header.values.video_orientation == 270);
    CHECK(header.values.has_capture_offset == 1);
    CHECK(header.values.capture_time == 0x0102030405060708);
    CHECK(header.values.capture_offset == -2);
    CHECK(header.values.has_video_timing == 0 && header.values.playout_delay_min.ticks == 5);
    CHECK(header.values.has_layers == 0);
}

static void is_not_parsed(void) {
    rtpw_map map = sample_map();
    rtpw_header header, same;
    memset(&header, 0x5A, sizeof header);
    memcpy(&same, &header, sizeof header);
    CHECK(rtpw_parse(SAMPLE, 11, &map, &header) == RTPW_CUT_FIXED_PART);
    CHECK(rtpw_parse(SAMPLE, 15, &map, &header) == RTPW_CUT_SOURCES);
    CHECK(rtpw_parse(SAMPLE, 59, &map, &header) == RTPW_CUT_BLOCK);
    CHECK(memcmp(&header, &same, sizeof header) == 0);
}

/* The bytes that were read are written again, but for the hyphen of the mid. */
static void is_written(void) {
    rtpw_map map = sample_map();
    rtpw_header header;
    uint8_t buf[64];
    size_t len = 0;
    memset(buf, 0xEE, sizeof buf);
    CHECK(rtpw_parse(SAMPLE, sizeof SAMPLE, &map, &header) == RTPW_OK);
    CHECK(rtpw_wire_len(&map, &header, &len) == RTPW_OK && len == 60);
    len = 7;
    CHECK(rtpw_write(&map, &header, buf, 59, &len) == RTPW_SHORT_BUFFER);
    CHECK(len == 7 && buf[0] == 0xEE);
    CHECK(rtpw_write(&map, &header, buf, sizeof buf, &len) == RTPW_OK);
    CHECK(len == 60 && buf[60] == 0xEE);
    CHECK(buf[26] == '_');
    buf[26] = '-';
    CHECK(memcmp(buf, SAMPLE, 60) == 0);

    header.values.mid[1] = '-';
    CHECK(rtpw_write(&map, &header, buf, sizeof buf, &len) == RTPW_BAD_FIELD);
    memset(header.values.mid, 'm', sizeof header.values.mid);
    CHECK(rtpw_wire_len(&map, &header, &len) == RTPW_BAD_FIELD);
    header.values.has_mid = 0;
    CHECK(rtpw_wire_len(&map, &header, &len) == RTPW_OK && len == 52);
    header.values.playout_delay_max.hertz = 0;
    CHECK(rtpw_write(&map, &header, buf, sizeof buf, &len) == RTPW_BAD_FIELD);
    header.values.playout_delay_max.hertz = 1;
    header.values.video_orientation = 45;
    CHECK(rtpw_write(&map, &header, buf, sizeof buf, &len) == RTPW_BAD_FIELD);
    header.values.video_orientation = 180;
    header.csrc_count = 16;
    CHECK(rtpw_write(&map, &header, buf, sizeof buf, &len) == RTPW_BAD_FIELD);
    header.csrc_count = 0;
    header.payload_type = 128;
    CHECK(rtpw_write(&map, &header, buf, sizeof buf, &len) == RTPW_BAD_FIELD);
    header.payload_type = 127;
    CHECK(rtpw_write(&map, &header, buf, sizeof buf, &len) == RTPW_OK && len == 48);
}

/* A level is seven bits without a sign, of which 0 is the loudest (RFC 6464, 3): one that isn't is refused, mapped or
 * not, and not cut. */
static void levels_out_of_range(void) {
    static const int8_t wrong[] = {1, 30, 127, -128};
    rtpw_map none, levels;
    rtpw_header header;
    rtpw_layers layers;
    uint32_t kinds = 7;
    uint8_t buf[40];
    size_t len = 7, i;
    memset(&none, 0, sizeof none);
    memset(&levels, 0, sizeof levels);
    memset(&header, 0, sizeof header);
    memset(&layers, 0, sizeof layers);
    memset(buf, 0xEE, sizeof buf);
    levels.kind[1] = RTPW_KIND_AUDIO_LEVEL;
    header.has_extension = header.values.has_audio_level = header.values.has_voice_activity = 1;
    header.values.voice_activity = header.values.has_transport_number = 1;
    for (i = 0; i < sizeof wrong; i++) {
        header.values.audio_level = wrong[i];
        CHECK(rtpw_write(&levels, &header, buf, sizeof buf, &len) == RTPW_BAD_FIELD);
        CHECK(rtpw_write(&none, &header, buf, 0, &len) == RTPW_BAD_FIELD);
        CHECK(rtpw_wire_len(&levels, &header, &len) == RTPW_BAD_FIELD);
        CHECK(rtpw_write_layers(&levels, &header, &layers, buf, sizeof buf, &len) == RTPW_BAD_FIELD);
        CHECK(rtpw_wire_len_layers(&none, &header, &layers, &len) == RTPW_BAD_FIELD);
        CHECK(rtpw_left_out(&levels, &header, &kinds) == RTPW_BAD_FIELD);
        CHECK(rtpw_left_out_layers(&levels, &header, &layers, &kinds) == RTPW_BAD_FIELD && kinds == 7);
        CHECK(rtpw_data_of(RTPW_KIND_AUDIO_LEVEL, &header.values, buf, sizeof buf, &len) == RTPW_BAD_FIELD);
        CHECK(rtpw_data_of(RTPW_KIND_TRANSPORT_NUMBER, &header.values, buf, 0, &len) == RTPW_BAD_FIELD);
        CHECK(len == 7 && buf[0] == 0xEE);
        header.values.has_audio_level = 0; /* what isn't there isn't looked at */
        CHECK(rtpw_data_of(RTPW_KIND_TRANSPORT_NUMBER, &header.values, buf + 20, 2, &len) == RTPW_OK);
        header.values.has_audio_level = 1;
        len = 7;
    }
    header.values.audio_level = -127;
    CHECK(rtpw_data_of(RTPW_KIND_AUDIO_LEVEL, &header.values, buf, 1, &len) == RTPW_OK && buf[0] == 0xFF);
    header.values.audio_level = 0;
    CHECK(rtpw_data_of(RTPW_KIND_AUDIO_LEVEL, &header.values, buf, 1, &len) == RTPW_OK && buf[0] == 0x80);
}

/* One-byte form: the streams 0 and 1, the second is the packet's own; 640 * 360 at 30; 5 and 300 kbit/s. */
static void layers_are_read(void) {
    static const uint8_t datagram[28] = {0x90, 0, 0, 1,    0, 0, 0, 2,    0, 0, 0,   3, 0xBE, 0xDE,
                                         0,    3, 0x59, 0x51, 0, 5, 0xAC, 2, 2, 127, 1, 103,  30};
    rtpw_map map = sample_map();
    rtpw_header header;
    rtpw_layers layers;
    map.kind[5] = RTPW_KIND_LAYERS;
    memset(&layers, 0xA5, sizeof layers);
    CHECK(rtpw_parse_layers(datagram, sizeof datagram, &map, &header, &layers) == RTPW_OK);
    CHECK(header.values.has_layers == 1);
    CHECK(layers.count == 2 && layers.current == 1);
    CHECK(layers.streams[0].count == 1 && layers.streams[1].count == 1 && layers.streams[2].count == 0);
    CHECK(layers.streams[0].layers[0].rates == 1 && layers.streams[0].layers[0].kbps[0] == 5);
    CHECK(layers.streams[1].layers[0].rates == 1 && layers.streams[1].layers[0].kbps[0] == 300);
    CHECK(layers.streams[0].layers[0].has_resolution == 1 && layers.streams[1].layers[0].has_resolution == 0);
    CHECK(layers.streams[0].layers[0].width == 640 && layers.streams[0].layers[0].height == 360);
    CHECK(layers.streams[0].layers[0].framerate == 30);
    CHECK(rtpw_parse_layers(SAMPLE, sizeof SAMPLE, &map, &header, &layers) == RTPW_OK);
    CHECK(header.values.has_layers == 0 && layers.count == 0 && layers.streams[0].layers[0].kbps[0] == 0);
}

/* In the two-byte form, in which layers are written: the bytes that were read are written again. */
static void layers_are_written(void) {
    static const uint8_t datagram[28] = {0x90, 0, 0, 1,  0,    0, 0, 2,    0, 0, 0,   3, 0x10, 0,
                                         0,    3, 5, 10, 0x51, 0, 5, 0xAC, 2, 2, 127, 1, 103,  30};
    rtpw_map map = sample_map();
    rtpw_header header;
    rtpw_layers layers;
    uint8_t buf[48];
    size_t len = 0;
    memset(buf, 0xEE, sizeof buf);
    map.kind[5] = RTPW_KIND_LAYERS;
    CHECK(rtpw_parse_layers(datagram, sizeof datagram, &map, &header, &layers) == RTPW_OK);
    CHECK(rtpw_wire_len_layers(&map, &header, &layers, &len) == RTPW_OK && len == 28);
    len = 7;
    CHECK(rtpw_write_layers(&map, &header, &layers, buf, 27, &len) == RTPW_SHORT_BUFFER);
    CHECK(len == 7 && buf[0] == 0xEE);
    CHECK(rtpw_write_layers(&map, &header, &layers, buf, sizeof buf, &len) == RTPW_OK);
    CHECK(len == 28 && memcmp(buf, datagram, 28) == 0 && buf[28] == 0xEE);

    /* What doesn't count isn't looked at, and layers at the end of a stream that aren't active go. */
    header.values.has_layers = 0;
    layers.streams[0].count = 4;
    memset(&layers.streams[2], 0xFF, sizeof layers.streams[2]);
    layers.streams[1].layers[0].kbps[1] = UINT64_MAX;
    layers.streams[1].layers[0].framerate = 7;
    layers.streams[0].layers[0].has_resolution = 9;
    memset(buf, 0, sizeof buf);
    CHECK(rtpw_write_layers(&map, &header, &layers, buf, sizeof buf, &len) == RTPW_OK);
    CHECK(len == 28 && memcmp(buf, datagram, 28) == 0);

    /* Under two ids; and without an id, or a block, none. */
    map.kind[200] = RTPW_KIND_LAYERS;
    CHECK(rtpw_write_layers(&map, &header, &layers, buf, sizeof buf, &len) == RTPW_OK && len == 40);
    CHECK(memcmp(buf + 12, "\x10\0\0\x06\x05\x0A", 6) == 0 && memcmp(buf + 18, datagram + 18, 10) == 0);
    CHECK(memcmp(buf + 28, "\xC8\x0A", 2) == 0 && memcmp(buf + 30, datagram + 18, 10) == 0);
    map.kind[5] = map.kind[200] = RTPW_KIND_NONE;
    CHECK(rtpw_write_layers(&map, &header, &layers, buf, sizeof buf, &len) == RTPW_OK && len == 16);
    CHECK(memcmp(buf + 12, "\xBE\xDE\0", 4) == 0);
    map.kind[5] = RTPW_KIND_LAYERS;
    header.has_extension = 0;
    CHECK(rtpw_wire_len_layers(&map, &header, &layers, &len) == RTPW_OK && len == 12);
    CHECK(rtpw_write_layers(&map, &header, &layers, buf, sizeof buf, &len) == RTPW_OK && len == 12 && buf[0] == 0x80);

    /* Nothing is sent. */
    header.has_extension = 1;
    memset(&layers, 0, sizeof layers);
    CHECK(rtpw_write_layers(&map, &header, &layers, buf, sizeof buf, &len) == RTPW_OK && len == 20);
    CHECK(memcmp(buf + 12, "\x10\0\0\x01\x05\x01\0", 8) == 0);
    header.payload_type = 128;
    CHECK(rtpw_wire_len_layers(&map, &header, &layers, &len) == RTPW_BAD_FIELD && len == 20);
}

/* Of the kinds 3, 5, 7, 12 and 15: a level without voice, one of two delays, a mid that isn't mapped. */
static void what_is_left_out_is_told(void) {
    rtpw_map map = {{0}};
    rtpw_header header = {0};
    rtpw_layers layers = {0};
    uint32_t kinds = 7;
    map.kind[1] = RTPW_KIND_AUDIO_LEVEL;
    map.kind[2] = map.kind[200] = RTPW_KIND_VIDEO_ORIENTATION;
    map.kind[3] = RTPW_KIND_PLAYOUT_DELAY;
    map.kind[4] = 130;
    CHECK(rtpw_left_out(&map, &header, &kinds) == RTPW_OK && kinds == 0);
    header.values.has_audio_level = header.values.has_video_orientation = header.values.has_mid = 1;
    header.values.has_playout_delay_max = header.values.has_layers = 1;
    header.values.playout_delay_max.hertz = 100;
    CHECK(rtpw_left_out(&map, &header, &kinds) == RTPW_OK && kinds == 0x90A8); /* X is clear */
    header.has_extension = 1;
    CHECK(rtpw_left_out(&map, &header, &kinds) == RTPW_OK && kinds == 0x9088);
    header.values.has_voice_activity = header.values.has_playout_delay_min = 1;
    header.values.playout_delay_min.hertz = 90000;
    CHECK(rtpw_left_out(&map, &header, &kinds) == RTPW_OK && kinds == 0x9000);
    CHECK(rtpw_left_out_layers(&map, &header, &layers, &kinds) == RTPW_OK && kinds == 0x9000);
    map.kind[255] = RTPW_KIND_LAYERS;
    map.kind[15] = RTPW_KIND_MID;
    CHECK(rtpw_left_out(&map, &header, &kinds) == RTPW_OK && kinds == 0x8000); /* rtpw_write writes no layers */
    header.values.has_layers = 0;
    CHECK(rtpw_left_out(&map, &header, &kinds) == RTPW_OK && kinds == 0);
    CHECK(rtpw_left_out_layers(&map, &header, &layers, &kinds) == RTPW_OK && kinds == 0);
    map.kind[9] = RTPW_KIND_ABS_CAPTURE_TIME;
    header.values.has_capture_offset = 1;
    CHECK(rtpw_left_out(&map, &header, &kinds) == RTPW_OK && kinds == 4);
    CHECK(rtpw_left_out_layers(&map, &header, &layers, &kinds) == RTPW_OK && kinds == 4);
    header.values.has_capture_time = 1;
    CHECK(rtpw_left_out(&map, &header, &kinds) == RTPW_OK && kinds == 0);

    kinds = 7;
    layers.count = 5;
    CHECK(rtpw_left_out_layers(&map, &header, &layers, &kinds) == RTPW_BAD_FIELD && kinds == 7);
    header.payload_type = 128;
    CHECK(rtpw_left_out(&map, &header, &kinds) == RTPW_BAD_FIELD && kinds == 7);
}

/* Four streams of four layers of four rates, whose first layer has a resolution of 1 * 1: 1 byte, 4 of counts, 64
 * rates and 5 bytes. */
static rtpw_layers many_layers(uint64_t kbps) {
    rtpw_layers layers;
    int s, l, i;
    memset(&layers, 0, sizeof layers);
    layers.count = 4;
    for (s = 0; s < 4; s++) {
        layers.streams[s].count = 4;
        for (l = 0; l < 4; l++) {
            layers.streams[s].layers[l].rates = 4;
            for (i = 0; i < 4; i++) {
                layers.streams[s].layers[l].kbps[i] = kbps;
            }
        }
    }
    layers.streams[0].layers[0].has_resolution = 1;
    layers.streams[0].layers[0].width = layers.streams[0].layers[0].height = 1;
    return layers;
}

/* That no element can carry them, mapped or not. */
static int are_refused(const rtpw_layers *layers) {
    rtpw_map map = sample_map(), none;
    rtpw_header header;
    uint8_t buf[300];
    size_t len = 7;
    memset(&none, 0, sizeof none);
    memset(&header, 0, sizeof header);
    memset(buf, 0xEE, sizeof buf);
    map.kind[5] = RTPW_KIND_LAYERS;
    return rtpw_wire_len_layers(&map, &header, layers, &len) == RTPW_BAD_FIELD &&
           rtpw_write_layers(&map, &header, layers, buf, sizeof buf, &len) == RTPW_BAD_FIELD &&
           rtpw_write_layers(&none, &header, layers, buf, 0, &len) == RTPW_BAD_FIELD && len == 7 && buf[0] == 0xEE;
}

static void layers_are_refused(void) {
    rtpw_map map = sample_map();
    rtpw_header header;
    rtpw_layers layers = many_layers(0), changed;
    rtpw_layer *last = &changed.streams[3].layers[3];
    uint8_t buf[300];
    size_t len = 0;
    int i;
    map.kind[5] = RTPW_KIND_LAYERS;
    memset(&header, 0, sizeof header);
    header.has_extension = 1;
    /* 74 bytes, and with the header and the end of a word 92 */
    CHECK(rtpw_wire_len_layers(&map, &header, &layers, &len) == RTPW_OK && len == 92);
    CHECK(!are_refused(&layers));
    changed = layers;
    changed.count = 5;
    CHECK(are_refused(&changed));
    changed = layers;
    changed.streams[3].count = 5;
    CHECK(are_refused(&changed));
    changed = layers;
    last->rates = 5;
    CHECK(are_refused(&changed));
    changed = layers;
    changed.current = 4;
    CHECK(are_refused(&changed));
    memset(&changed, 0, sizeof changed);
    changed.current = 1;
    CHECK(are_refused(&changed));
    changed = layers;
    last->kbps[3] = (uint64_t)1 << 63;
    CHECK(are_refused(&changed));
    last->kbps[3]--;
    CHECK(!are_refused(&changed));
    changed = layers;
    changed.streams[0].layers[0].width = 0;
    CHECK(are_refused(&changed));
    changed = layers;
    changed.streams[0].layers[0].height = 0;
    CHECK(are_refused(&changed));
    changed = layers;
    changed.streams[0].layers[0].rates = 0;
    CHECK(are_refused(&changed));
    changed = layers;
    changed.streams[0].layers[2] = changed.streams[0].layers[0];
    CHECK(are_refused(&changed));
    changed.streams[0].layers[1].rates = 0;
    CHECK(!are_refused(&changed));

    /* 10 bytes, 61 rates of four bytes and one of one are 255; two rates are none. */
    layers = many_layers(0x200000);
    last = &layers.streams[3].layers[3];
    last->rates = 2;
    last->kbps[1] = 127;
    CHECK(!are_refused(&layers));
    CHECK(rtpw_write_layers(&map, &header, &layers, buf, sizeof buf, &len) == RTPW_OK && len == 276);
    CHECK(memcmp(buf + 12, "\x10\0\0\x41\x05\xFF\x3F\xFF\xFF\xFF\xFD\x80\x80\x80\x01", 15) == 0);
    CHECK(memcmp(buf + 267, "\x7F\0\0\0\0\0\0\0\0", 9) == 0);
    last->kbps[1] = 128;
    CHECK(are_refused(&layers));
    for (i = 0; i < 2; i++) {
        last->kbps[i] = 127;
    }
    CHECK(!are_refused(&layers));
}

static void elements_are_written(void) {
    static const uint8_t data[4] = {0xAA, 0xBB, 0xCC, 0xDD};
    rtpw_element elements[2] = {{0, 1, 0, 1}, {1, 2, 0, 2}};
    rtpw_header header;
    uint8_t buf[32];
    size_t len = 7;
    memset(&header, 0, sizeof header);
    memset(buf, 0xEE, sizeof buf);
    CHECK(rtpw_write_elements(data, 4, elements, 2, RTPW_ONE_BYTE_FORM, buf, 4, &len) == RTPW_SHORT_BUFFER);
    CHECK(rtpw_write_elements(data, 4, elements, 2, RTPW_NO_BLOCK, buf, 32, &len) == RTPW_BAD_FIELD);
    CHECK(rtpw_write_elements(data, 2, elements, 2, RTPW_ONE_BYTE_FORM, buf, 32, &len) == RTPW_BAD_FIELD);
    CHECK(len == 7 && buf[0] == 0xEE);
    CHECK(rtpw_write_elements(data, 4, elements, 2, RTPW_ONE_BYTE_FORM, buf, 32, &len) == RTPW_OK);
    CHECK(len == 5 && memcmp(buf, "\x10\xAA\x21\xBB\xCC\xEE", 6) == 0);
    CHECK(rtpw_write_elements(data, 4, elements, 2, RTPW_TWO_BYTE_FORM, buf, 32, &len) == RTPW_OK);
    CHECK(len == 7 && memcmp(buf, "\x01\x01\xAA\x02\x02\xBB\xCC\xEE", 8) == 0);
    CHECK(rtpw_write_elements(data, 0, elements, 0, RTPW_TWO_BYTE_FORM, buf, 32, &len) == RTPW_OK && len == 0);
    CHECK(rtpw_write_with(&header, data, 4, elements, 2, buf, 32, &len) == RTPW_OK && len == 24);
    CHECK(memcmp(buf, "\x90\0\0\0\0\0\0\0\0\0\0\0\xBE\xDE\0\x02\x10\xAA\x21\xBB\xCC\0\0\0\xEE", 25) == 0);
    elements[0].id = 15;
    CHECK(rtpw_write_with(&header, data, 4, elements, 2, buf, 32, &len) == RTPW_OK && len == 24);
    CHECK(memcmp(buf + 12, "\x10\0\0\x02\x0F\x01\xAA\x02\x02\xBB\xCC\0", 12) == 0);
    elements[0].id = 0;
    CHECK(rtpw_write_with(&header, data, 4, elements, 2, buf, 32, &len) == RTPW_BAD_FIELD);
}

static void elements_are_written_in_one_form(void) {
    static const uint8_t data[4] = {0xAA, 0xBB, 0xCC, 0xDD};
    rtpw_element elements[2] = {{0, 1, 0, 14}, {1, 2, 0, 2}};
    rtpw_header header;
    uint8_t buf[32];
    size_t len = 7;
    memset(&header, 0, sizeof header);
    memset(buf, 0xEE, sizeof buf);
    CHECK(rtpw_write_with_form(&header, data, 4, elements, 2, 3, buf, 32, &len) == RTPW_BAD_FIELD);
    CHECK(rtpw_write_with_form(&header, data, 4, elements, 2, 255, buf, 32, &len) == RTPW_BAD_FIELD);
    CHECK(rtpw_write_with_form(&header, data, 4, elements, 2, RTPW_TWO_BYTE_FORM, buf, 23, &len) == RTPW_SHORT_BUFFER);
    CHECK(rtpw_write_with_form(&header, data, 4, elements, 2, RTPW_ONE_BYTE_FORM, buf, 23, &len) == RTPW_SHORT_BUFFER);
    CHECK(len == 7 && buf[0] == 0xEE);
    CHECK(rtpw_write_with_form(&header, data, 4, elements, 2, RTPW_TWO_BYTE_FORM, buf, 24, &len) == RTPW_OK && len == 24);
    CHECK(memcmp(buf, "\x90\0\0\0\0\0\0\0\0\0\0\0\x10\0\0\x02\x0E\x01\xAA\x02\x02\xBB\xCC\0\xEE", 25) == 0);
    CHECK(rtpw_write_with_form(&header, data, 4, elements, 2, RTPW_ONE_BYTE_FORM, buf, 24, &len) == RTPW_OK && len == 24);
    CHECK(memcmp(buf + 12, "\xBE\xDE\0\x02\xE0\xAA\x21\xBB\xCC\0\0\0\xEE", 13) == 0);
    elements[0].id = 15;
    CHECK(rtpw_write_with_form(&header, data, 4, elements, 2, RTPW_ONE_BYTE_FORM, buf, 32, &len) == RTPW_BAD_FIELD);
    CHECK(rtpw_write_with_form(&header, data, 4, elements, 2, RTPW_ONE_BYTE_FORM, buf, 0, &len) == RTPW_BAD_FIELD);
    CHECK(rtpw_write_with_form(&header, data, 4, elements, 2, 0, buf, 32, &len) == RTPW_OK && len == 24);
    CHECK(memcmp(buf + 12, "\x10\0\0\x02\x0F\x01\xAA\x02\x02\xBB\xCC\0", 12) == 0);
    elements[0].id = 14;
    elements[0].data_len = 0;
    CHECK(rtpw_write_with_form(&header, data, 4, elements, 2, RTPW_ONE_BYTE_FORM, buf, 32, &len) == RTPW_BAD_FIELD);
    CHECK(rtpw_write_with_form(&header, data, 4, elements, 2, RTPW_TWO_BYTE_FORM, buf, 32, &len) == RTPW_OK);
    CHECK(len == 24 && memcmp(buf + 12, "\x10\0\0\x02\x0E\0\x02\x02\xBB\xCC\0\0", 12) == 0);
}

#ifndef MODULE_ALONE /* JavaScript's module exports no such call */
static void fixed_parts_are_read(void) {
    static const uint8_t datagram[] = {0xB1, 0xE0, 0, 5, 0, 0, 0, 160, 0, 0, 0, 7, 0, 0, 0, 9, 0xBE, 0xDE,
                                       0, 1, 0x10, 0x8A, 0, 0, 'h', 'i', 0, 2};
    rtpw_fixed_part fixed;
    rtpw_layout layout;
    memset(&fixed, 0xEE, sizeof fixed);
    memset(&layout, 0xEE, sizeof layout);
    CHECK(rtpw_read_fixed_part(datagram, 11, &fixed, &layout) == RTPW_CUT_FIXED_PART);
    CHECK(rtpw_read_fixed_part(datagram, 15, &fixed, &layout) == RTPW_CUT_SOURCES);
    CHECK(rtpw_read_fixed_part(datagram, 19, &fixed, &layout) == RTPW_CUT_BLOCK_HEADER);
    CHECK(rtpw_read_fixed_part(datagram, 23, &fixed, &layout) == RTPW_CUT_BLOCK);
    CHECK(fixed.version == 0xEE && fixed.ssrc == 0xEEEEEEEE && layout.csrc_count == 0xEE);
    CHECK(rtpw_read_fixed_part(datagram, sizeof datagram, &fixed, &layout) == RTPW_OK);
    CHECK(fixed.version == 2 && fixed.has_padding == 1 && fixed.has_extension == 1 && fixed.marker == 1);
    CHECK(fixed.payload_type == 96 && fixed.sequence_number == 5 && fixed.timestamp == 160 && fixed.ssrc == 7);
    CHECK(layout.payload_at == 24 && layout.unpadded_len == 2 && layout.padding_fits == 1 && layout.body_at == 20);
    CHECK(layout.block_profile == 0xBEDE && layout.block_form == RTPW_ONE_BYTE_FORM && layout.csrc_count == 1);
    CHECK(rtpw_read_fixed_part((const uint8_t *)"\x80\0\0\0\0\0\0\0\0\0\0\1\xFF", 13, &fixed, &layout) == RTPW_OK);
    CHECK(fixed.has_padding == 0 && fixed.has_extension == 0 && fixed.marker == 0 && fixed.payload_type == 0);
    CHECK(fixed.ssrc == 1 && layout.payload_at == 12 && layout.body_at == 12 && layout.unpadded_len == 1);
    CHECK(layout.block_profile == 0 && layout.block_form == RTPW_NO_BLOCK && layout.csrc_count == 0);
    CHECK(rtpw_read_fixed_part((const uint8_t *)"\xA0\0\0\0\0\0\0\0\0\0\0\1\2", 13, &fixed, &layout) == RTPW_OK);
    CHECK(fixed.has_padding == 1 && layout.padding_fits == 0 && layout.unpadded_len == 0);
}

static void fixed_parts_are_written(void) {
    rtpw_fixed_part fixed = {7, 1, 1, 1, 127, 0xB798, 10000, 44};
    uint8_t buf[16];
    memset(buf, 0xEE, sizeof buf);
    CHECK(rtpw_write_fixed_part(&fixed, buf, 11) == RTPW_SHORT_BUFFER);
    fixed.payload_type = 128;
    CHECK(rtpw_write_fixed_part(&fixed, buf, 0) == RTPW_BAD_FIELD);
    CHECK(rtpw_write_fixed_part(&fixed, buf, 16) == RTPW_BAD_FIELD && buf[0] == 0xEE);
    fixed.payload_type = 127;
    CHECK(rtpw_write_fixed_part(&fixed, buf, 12) == RTPW_OK);
    CHECK(memcmp(buf, "\xA0\xFF\xB7\x98\0\0\x27\x10\0\0\0\x2C\xEE", 13) == 0);
    fixed.has_padding = fixed.marker = 0;
    fixed.payload_type = 33;
    CHECK(rtpw_write_fixed_part(&fixed, buf, 16) == RTPW_OK);
    CHECK(memcmp(buf, "\x80\x21\xB7\x98\0\0\x27\x10\0\0\0\x2C\xEE", 13) == 0);
}

static void data_elements_are_written(void) {
    static const uint8_t one[1] = {0xAA}, two[2] = {0xBB, 0xCC};
    rtpw_fixed_part fixed = {0, 0, 0, 0, 33, 47000, 10000, 44};
    rtpw_data_element elements[2] = {{1, one, 1, 5}, {2, two, 2, 6}};
    uint8_t buf[32];
    size_t len = 7;
    memset(buf, 0xEE, sizeof buf);
    CHECK(rtpw_write_data_elements(&fixed, elements, 2, RTPW_NO_BLOCK, buf, 32, &len) == RTPW_BAD_FIELD);
    CHECK(rtpw_write_data_elements(&fixed, elements, 2, RTPW_OTHER_FORM, buf, 32, &len) == RTPW_BAD_FIELD);
    CHECK(rtpw_write_data_elements(&fixed, elements, 2, RTPW_ONE_BYTE_FORM, buf, 23, &len) == RTPW_SHORT_BUFFER);
    elements[0].id = 15;
    CHECK(rtpw_write_data_elements(&fixed, elements, 2, RTPW_ONE_BYTE_FORM, buf, 32, &len) == RTPW_BAD_FIELD);
    elements[0].id = 0;
    CHECK(rtpw_write_data_elements(&fixed, elements, 2, RTPW_TWO_BYTE_FORM, buf, 32, &len) == RTPW_BAD_FIELD);
    elements[0].id = 1;
    fixed.payload_type = 128;
    CHECK(rtpw_write_data_elements(&fixed, elements, 2, RTPW_ONE_BYTE_FORM, buf, 0, &len) == RTPW_BAD_FIELD);
    fixed.payload_type = 33;
    CHECK(len == 7 && buf[0] == 0xEE);
    CHECK(rtpw_write_data_elements(&fixed, elements, 2, RTPW_ONE_BYTE_FORM, buf, 24, &len) == RTPW_OK && len == 24);
    CHECK(memcmp(buf, "\x90\x21\xB7\x98\0\0\x27\x10\0\0\0\x2C\xBE\xDE\0\x02\x10\xAA\x21\xBB\xCC\0\0\0\xEE", 25) == 0);
    CHECK(rtpw_write_data_elements(&fixed, elements, 2, RTPW_TWO_BYTE_FORM, buf, 32, &len) == RTPW_OK && len == 24);
    CHECK(memcmp(buf + 12, "\x10\0\0\x02\x01\x01\xAA\x02\x02\xBB\xCC\0\xEE", 13) == 0);
    elements[0].data = NULL;
    elements[0].data_len = 0;
    CHECK(rtpw_write_data_elements(&fixed, elements, 1, RTPW_TWO_BYTE_FORM, buf, 32, &len) == RTPW_OK && len == 20);
    CHECK(memcmp(buf + 12, "\x10\0\0\x01\x01\0\0\0", 8) == 0);
    CHECK(rtpw_write_data_elements(&fixed, elements, 0, RTPW_ONE_BYTE_FORM, buf, 32, &len) == RTPW_OK && len == 16);
    CHECK(memcmp(buf + 12, "\xBE\xDE\0\0", 4) == 0);
}
#endif

static uint8_t kind_of(const char *uri) {
    return rtpw_kind_of_uri((const uint8_t *)uri, strlen(uri));
}

static void maps_are_filled(void) {
    rtpw_map map;
    memset(&map, 0, sizeof map);
    CHECK(kind_of("urn:ietf:params:rtp-hdrext:sdes:mid") == RTPW_KIND_MID);
    CHECK(kind_of("urn:ietf:params:rtp-hdrext:sdes:MID") == RTPW_KIND_NONE);
    CHECK(kind_of("") == RTPW_KIND_NONE);
    CHECK(rtpw_map_set(&map, 0, RTPW_KIND_MID) == RTPW_BAD_FIELD);
    CHECK(rtpw_map_set(&map, 255, 21) == RTPW_BAD_FIELD && rtpw_map_set(&map, 255, 127) == RTPW_BAD_FIELD);
    CHECK(rtpw_map_set(&map, 255, RTPW_KIND_LAYERS) == RTPW_OK);
    CHECK(rtpw_map_get(&map, 255) == RTPW_KIND_LAYERS);
    /* a URI that is misspelled names none, and then nothing changes */
    CHECK(rtpw_map_set(&map, 255, kind_of("urn:ietf:params:rtp-hdrext:sdes:midd")) == RTPW_BAD_FIELD);
    CHECK(rtpw_map_get(&map, 255) == RTPW_KIND_LAYERS);
    CHECK(rtpw_map_set(&map, 254, RTPW_KIND_NTP_56) == RTPW_OK && rtpw_id_of(&map, RTPW_KIND_NTP_56) == 254);
    rtpw_map_remove(&map, 255);
    CHECK(rtpw_map_get(&map, 255) == RTPW_KIND_NONE && rtpw_map_get(&map, 254) == RTPW_KIND_NTP_56);
    rtpw_map_remove(&map, 255);
    rtpw_map_remove(&map, 0);
    CHECK(rtpw_map_get(&map, 254) == RTPW_KIND_NTP_56 && rtpw_id_of(&map, RTPW_KIND_LAYERS) == 0);
    map.kind[0] = RTPW_KIND_MID;
    map.kind[9] = 21;
    CHECK(rtpw_map_get(&map, 0) == RTPW_KIND_NONE && rtpw_map_get(&map, 9) == RTPW_KIND_NONE);
    rtpw_map_standard(&map);
    CHECK(rtpw_map_get(&map, 1) == RTPW_KIND_AUDIO_LEVEL && rtpw_map_get(&map, 9) == RTPW_KIND_NONE);
    CHECK(rtpw_map_get(&map, 13) == RTPW_KIND_VIDEO_ORIENTATION);
}

/* A kind of this library without a field, and one of the caller's own, go from one map to the other, and no value is
 * read or written of them. */
static void kinds_without_a_field(void) {
    static const uint8_t kinds[] = {16, 17, 18, 19, 20, RTPW_KIND_OWN, 255};
    static const uint8_t wanted[24] = {0x90, 0,    0, 1, 0,    0, 0, 2, 0,    0,    0,    3,
                                       0xBE, 0xDE, 0, 2, 0x22, 9, 8, 7, 0x00, 0x00, 0x90, 1};
    size_t i;
    for (i = 0; i < sizeof kinds; i++) {
        uint8_t bytes[24] = {0x90, 0,    0, 1, 0,    0, 0, 2, 0,    0,    0,    3,
                             0xBE, 0xDE, 0, 2, 0x72, 9, 8, 7, 0x10, 0x8A, 0x30, 1};
        rtpw_map from, to;
        rtpw_new_ids ids;
        rtpw_header header;
        rtpw_values no_values;
        size_t len = 7;
        memset(&from, 0, sizeof from);
        memset(&to, 0, sizeof to);
        memset(&no_values, 0, sizeof no_values);
        CHECK(rtpw_map_set(&from, 7, kinds[i]) == RTPW_OK && rtpw_map_get(&from, 7) == kinds[i]);
        CHECK(rtpw_map_set(&from, 3, RTPW_KIND_VIDEO_CONTENT_TYPE) == RTPW_OK);
        CHECK(rtpw_map_set(&to, 2, kinds[i]) == RTPW_OK && rtpw_map_set(&to, 4, kinds[i]) == RTPW_OK);
        CHECK(rtpw_map_set(&to, 9, RTPW_KIND_VIDEO_CONTENT_TYPE) == RTPW_OK && rtpw_id_of(&to, kinds[i]) == 2);
        CHECK(rtpw_parse(bytes, sizeof bytes, &from, &header) == RTPW_OK);
        CHECK(header.values.has_video_content_type == 1 && header.values.video_content_type == 1);
        no_values.has_video_content_type = no_values.video_content_type = 1;
        CHECK(memcmp(&header.values, &no_values, sizeof no_values) == 0);
        CHECK(rtpw_data_of(kinds[i], &header.values, bytes, sizeof bytes, &len) == RTPW_NONE && len == 7);
        rtpw_new_ids_between(&from, &to, &ids);
        CHECK(rtpw_renumber(bytes, sizeof bytes, &ids) == RTPW_OK && memcmp(bytes, wanted, sizeof wanted) == 0);
    }
}

/* The caller's own kinds, and numbers that mean nothing. */
static void own_kinds_are_kept(void) {
    enum { ITS_OWN = RTPW_KIND_OWN, UNKNOWN_TO_ALL = 255 };
    uint8_t bytes[24] = {0x90, 0, 0, 1, 0, 0, 0, 2, 0,    0,    0,    3,
                         0xBE, 0xDE, 0, 2, 0x72, 9, 8, 7, 0x10, 0x8A, 0x90, 1};
    rtpw_map from, to;
    rtpw_new_ids ids;
    rtpw_header header;
    size_t len = 0;
    memset(&from, 0, sizeof from);
    memset(&to, 0, sizeof to);
    CHECK(rtpw_map_set(&from, 7, ITS_OWN) == RTPW_OK);
    CHECK(rtpw_map_set(&from, 9, UNKNOWN_TO_ALL) == RTPW_OK);
    CHECK(rtpw_map_set(&from, 1, RTPW_KIND_AUDIO_LEVEL) == RTPW_OK);
    CHECK(rtpw_map_set(&from, 2, 127) == RTPW_BAD_FIELD && rtpw_map_set(&from, 0, 128) == RTPW_BAD_FIELD);
    CHECK(rtpw_map_get(&from, 7) == 128 && rtpw_map_get(&from, 9) == 255 && rtpw_map_get(&from, 2) == 0);
    to.kind[4] = to.kind[12] = ITS_OWN;
    to.kind[3] = RTPW_KIND_AUDIO_LEVEL;
    to.kind[5] = from.kind[5] = 100; /* means nothing on either side */
    CHECK(rtpw_id_of(&to, ITS_OWN) == 4 && rtpw_id_of(&to, RTPW_KIND_AUDIO_LEVEL) == 3);
    CHECK(rtpw_id_of(&to, UNKNOWN_TO_ALL) == 0 && rtpw_id_of(&to, RTPW_KIND_MID) == 0);
    CHECK(rtpw_id_of(&to, 100) == 0 && rtpw_id_of(&to, RTPW_KIND_NONE) == 0);
    rtpw_new_ids_between(&from, &to, &ids);
    CHECK(ids.id[7] == 4 && ids.id[9] == 0 && ids.id[1] == 3 && ids.id[5] == 0 && ids.id[0] == 0);
    CHECK(rtpw_renumber(bytes, sizeof bytes, &ids) == RTPW_OK);
    CHECK(memcmp(bytes + 16, "\x42\x09\x08\x07\x30\x8A\0\0", 8) == 0);
    /* It reads no value, is not written, and needs no two-byte form: a level under the id 3, above which is 200. */
    to.kind[200] = UNKNOWN_TO_ALL;
    CHECK(rtpw_parse(bytes, sizeof bytes, &to, &header) == RTPW_OK);
    CHECK(header.values.has_audio_level == 1 && header.values.audio_level == -10);
    CHECK(rtpw_write(&to, &header, bytes, sizeof bytes, &len) == RTPW_OK && len == 20);
    CHECK(memcmp(bytes + 12, "\xBE\xDE\0\x01\x30\x8A\0\0", 8) == 0);
}

/* The data of one kind: 2^18 * 40 of 40 s; -10 dB with voice; a mid; a delay of 50 ms to 1 s. */
static void data_are_written(void) {
    rtpw_values values;
    uint8_t data[16];
    size_t len = 99;
    memset(&values, 0, sizeof values);
    memset(data, 0xA5, sizeof data);
    CHECK(rtpw_data_of(RTPW_KIND_ABS_SEND_TIME, &values, data, sizeof data, &len) == RTPW_NONE && len == 99);
    values.has_send_time = 1;
    values.send_time = 40000000;
    CHECK(rtpw_data_of(RTPW_KIND_ABS_SEND_TIME, &values, data, sizeof data, &len) == RTPW_OK && len == 3);
    CHECK(memcmp(data, "\xA0\0\0\xA5", 4) == 0);
    values.has_audio_level = 1;
    values.audio_level = -10;
    CHECK(rtpw_data_of(RTPW_KIND_AUDIO_LEVEL, &values, data, sizeof data, &len) == RTPW_NONE);
    values.has_voice_activity = values.voice_activity = 1;
    CHECK(rtpw_data_of(RTPW_KIND_AUDIO_LEVEL, &values, data, 1, &len) == RTPW_OK && len == 1 && data[0] == 0x8A);
    values.has_mid = 1;
    memcpy(values.mid, "v", 2);
    CHECK(rtpw_data_of(RTPW_KIND_MID, &values, data, 0, &len) == RTPW_SHORT_BUFFER && len == 1);
    CHECK(rtpw_data_of(RTPW_KIND_MID, &values, data, 1, &len) == RTPW_OK && len == 1 && data[0] == 'v');
    values.mid[0] = '\0';
    CHECK(rtpw_data_of(RTPW_KIND_MID, &values, NULL, 0, &len) == RTPW_OK && len == 0);
    values.has_playout_delay_min = values.has_playout_delay_max = 1;
    values.playout_delay_min.ticks = 5;
    values.playout_delay_max.ticks = 100;
    values.playout_delay_min.hertz = values.playout_delay_max.hertz = 100;
    CHECK(rtpw_data_of(RTPW_KIND_PLAYOUT_DELAY, &values, data, sizeof data, &len) == RTPW_OK && len == 3);
    CHECK(memcmp(data, "\0\x50\x64", 3) == 0);
    /* No value: a kind without one, and one of the caller's own. Bad: a number that names nothing, and any bad value. */
    values.has_layers = 1;
    CHECK(rtpw_data_of(RTPW_KIND_LAYERS, &values, data, sizeof data, &len) == RTPW_NONE);
    CHECK(rtpw_data_of(RTPW_KIND_COLOR_SPACE, &values, data, sizeof data, &len) == RTPW_NONE);
    CHECK(rtpw_data_of(RTPW_KIND_OWN, &values, data, sizeof data, &len) == RTPW_NONE);
    CHECK(rtpw_data_of(RTPW_KIND_NONE, &values, data, sizeof data, &len) == RTPW_BAD_FIELD);
    CHECK(rtpw_data_of(21, &values, data, sizeof data, &len) == RTPW_BAD_FIELD);
    CHECK(rtpw_data_of(127, &values, data, sizeof data, &len) == RTPW_BAD_FIELD);
    values.mid[0] = '-';
    CHECK(rtpw_data_of(RTPW_KIND_ABS_SEND_TIME, &values, data, 2, &len) == RTPW_BAD_FIELD);
    CHECK(rtpw_data_of(RTPW_KIND_OWN, &values, data, sizeof data, &len) == RTPW_BAD_FIELD && len == 3);
    CHECK(memcmp(data, "\0\x50\x64\xA5", 4) == 0);
}

static void is_renumbered(void) {
    static const uint8_t datagram[20] = {0x90, 0, 0,    1,    0, 0, 0,    2,    0,    0,
                                         0,    3, 0xBE, 0xDE, 0, 1, 0x10, 0xAA, 0x20, 0xBB};
    uint8_t bytes[20];
    rtpw_map from, to;
    rtpw_new_ids ids;
    memset(&from, 0, sizeof from);
    memset(&to, 0, sizeof to);
    from.kind[1] = RTPW_KIND_MID;
    from.kind[2] = RTPW_KIND_AUDIO_LEVEL;
    to.kind[14] = to.kind[200] = RTPW_KIND_AUDIO_LEVEL;
    memset(&ids, 0xA5, sizeof ids);
    rtpw_new_ids_between(&from, &to, &ids);
    CHECK(ids.id[0] == 0 && ids.id[1] == 0 && ids.id[2] == 14 && ids.id[3] == 0);
    memcpy(bytes, datagram, sizeof bytes);
    CHECK(rtpw_renumber(bytes, 19, &ids) == RTPW_CUT_BLOCK);
    ids.id[1] = 15;
    CHECK(rtpw_renumber(bytes, sizeof bytes, &ids) == RTPW_LONG_ID);
    CHECK(memcmp(bytes, datagram, sizeof bytes) == 0);
    ids.id[1] = 0;
    CHECK(rtpw_renumber(bytes, sizeof bytes, &ids) == RTPW_OK);
    CHECK(memcmp(bytes, datagram, 16) == 0 && memcmp(bytes + 16, "\0\0\xE0\xBB", 4) == 0);
}

int main(void) {
    is_parsed();
    is_not_parsed();
    is_written();
    levels_out_of_range();
    layers_are_read();
    layers_are_written();
    what_is_left_out_is_told();
    layers_are_refused();
    elements_are_written();
    elements_are_written_in_one_form();
#ifndef MODULE_ALONE
    fixed_parts_are_read();
    fixed_parts_are_written();
    data_elements_are_written();
#endif
    maps_are_filled();
    is_renumbered();
    kinds_without_a_field();
    own_kinds_are_kept();
    data_are_written();
    return failed;
}
