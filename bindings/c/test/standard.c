/* The values as the standards lay them out. The expected values are worked out by hand from RFC 5450, RFC 9626, 3GPP TS
 * 26.114, RFC 8866, RFC 6465, RFC 6051, AV1's RTP payload format, and WebRTC's descriptions of its extensions. */
#include "../rtp_wire.h"

#include <stdio.h>
#include <string.h>

static int failed = 0;

#define CHECK(holds) \
    do { \
        if (!(holds)) { \
            printf("line %d: %s\n", __LINE__, #holds); \
            failed = 1; \
        } \
    } while (0)

/* What a writing wrote: all of a buffer is 0xEE before it. */
static uint8_t buf[40];
static size_t len;

static size_t room_of(size_t size) {
    memset(buf, 0xEE, sizeof buf);
    len = 77;
    return size;
}

static int has_written(const uint8_t *data, size_t data_len) {
    size_t i;
    for (i = data_len; i < sizeof buf; i++) {
        if (buf[i] != 0xEE) {
            return 0;
        }
    }
    return len == data_len && memcmp(buf, data, data_len) == 0;
}

static int has_written_nothing(void) {
    size_t i;
    for (i = 0; i < sizeof buf; i++) {
        if (buf[i] != 0xEE) {
            return 0;
        }
    }
    return len == 77;
}

/* 24 bits without a sign, each exact both ways. */
static void send_times(void) {
    static const struct {
        uint8_t data[3];
        uint32_t units;
    } rows[] = {
        {{0x00, 0x00, 0x00}, 0}, {{0x00, 0x00, 0x01}, 1}, {{0x01, 0x02, 0x03}, 66051}, {{0xFF, 0xFF, 0xFF}, 16777215},
    };
    /* The low 38 bits are those of the units and 14 zeros: 2^38 is 64 seconds. */
    static const struct {
        uint64_t near;
        uint32_t units;
        uint64_t sent;
    } nearest[] = {
        {0, 1, 0x4000},
        {0, 0xFFFFFF, 0xFFFFFFFFFFFFC000},
        {0, 0x800000, 0x2000000000}, /* 32 seconds after it and before it: the later one */
        {0xFFFFFFFFFFFFFFFF, 0x800000, 0xFFFFFFE000000000},
        {1, 0x800000, 0x2000000000},
        {0, 0xAB000002, 0x8000},                            /* of the units the low 24 bits */
        {0xE0000000C0000000, 0xFFFFFF, 0xDFFFFFFFFFFFC000}, /* 750 ms after the units begin anew */
        {0xE000003FC0000000, 0x000001, 0xE000004000004000}, /* 250 ms before they do */
        {0x123456789ABCDEF0, 0x159E26, 0x1234568567898000}, /* 12.8 s after it, and not 51.2 s before it */
    };
    uint8_t four[4] = {1, 2, 3, 4};
    uint32_t units = 55;
    size_t i;
    for (i = 0; i < sizeof rows / sizeof *rows; i++) {
        CHECK(rtpw_read_send_time(rows[i].data, 3, &units) == RTPW_OK && units == rows[i].units);
        CHECK(rtpw_write_send_time(rows[i].units, buf, room_of(3), &len) == RTPW_OK && has_written(rows[i].data, 3));
        CHECK(rtpw_write_send_time(rows[i].units, buf, room_of(2), &len) == RTPW_SHORT_BUFFER && has_written_nothing());
    }
    units = 55;
    CHECK(rtpw_read_send_time(four, 4, &units) == RTPW_BAD_FIELD && units == 55);
    CHECK(rtpw_read_send_time(four, 2, &units) == RTPW_BAD_FIELD && rtpw_read_send_time(NULL, 0, &units) == RTPW_BAD_FIELD);
    CHECK(rtpw_write_send_time(0x1000000, buf, room_of(2), &len) == RTPW_BAD_FIELD && has_written_nothing());
    CHECK(rtpw_write_send_time(0xFFFFFFFF, buf, room_of(40), &len) == RTPW_BAD_FIELD && has_written_nothing());
    for (i = 0; i < sizeof nearest / sizeof *nearest; i++) {
        CHECK(rtpw_extend_send_time(nearest[i].near, nearest[i].units) == nearest[i].sent);
    }
}

/* 24 bits in two's complement. */
static void transmission_offsets(void) {
    static const struct {
        uint8_t data[3];
        int32_t offset;
    } rows[] = {
        {{0x00, 0x00, 0x00}, 0},        {{0x01, 0x02, 0x03}, 66051},    {{0xFF, 0xFF, 0xA6}, -90},
        {{0x7F, 0xFF, 0xFF}, 8388607},  {{0x80, 0x00, 0x00}, -8388608}, {{0xFE, 0xFD, 0xFC}, -66052},
    };
    uint8_t four[4] = {0, 0, 0, 90};
    int32_t offset = 55;
    size_t i;
    for (i = 0; i < sizeof rows / sizeof *rows; i++) {
        CHECK(rtpw_read_transmission_offset(rows[i].data, 3, &offset) == RTPW_OK && offset == rows[i].offset);
        CHECK(rtpw_write_transmission_offset(rows[i].offset, buf, room_of(3), &len) == RTPW_OK);
        CHECK(has_written(rows[i].data, 3));
    }
    offset = 55;
    CHECK(rtpw_read_transmission_offset(four, 4, &offset) == RTPW_BAD_FIELD && offset == 55);
    CHECK(rtpw_read_transmission_offset(four, 2, &offset) == RTPW_BAD_FIELD && offset == 55);
    CHECK(rtpw_read_transmission_offset(NULL, 0, &offset) == RTPW_BAD_FIELD && offset == 55);
    CHECK(rtpw_write_transmission_offset(8388608, buf, room_of(3), &len) == RTPW_BAD_FIELD && has_written_nothing());
    CHECK(rtpw_write_transmission_offset(-8388609, buf, room_of(3), &len) == RTPW_BAD_FIELD && has_written_nothing());
    CHECK(rtpw_write_transmission_offset(-90, buf, room_of(2), &len) == RTPW_SHORT_BUFFER && has_written_nothing());
    /* the range comes first */
    CHECK(rtpw_write_transmission_offset(8388608, NULL, 0, &len) == RTPW_BAD_FIELD && len == 77);
}

/* S E I D B TID, LID, TL0PICIDX. */
static void frame_markings(void) {
    static const uint8_t data[3] = {0xA9, 0x02, 0x07}, frame[1] = {0x5A}, last[1] = {0x50}, two[2] = {0x17, 0x83};
    rtpw_frame_marking it;
    memset(&it, 0xEE, sizeof it);
    CHECK(rtpw_read_frame_marking(data, 3, &it) == RTPW_OK);
    CHECK(it.start == 1 && it.end == 0 && it.independent == 1 && it.discardable == 0);
    CHECK(it.has_layers == 1 && it.base_layer_sync == 1 && it.temporal_id == 1 && it.layer_id == 2);
    CHECK(it.has_tl0_pic_idx == 1 && it.tl0_pic_idx == 7);
    CHECK(rtpw_write_frame_marking(&it, buf, room_of(3), &len) == RTPW_OK && has_written(data, 3));
    CHECK(rtpw_write_frame_marking(&it, buf, room_of(2), &len) == RTPW_SHORT_BUFFER && has_written_nothing());
    it.temporal_id = 8;
    CHECK(rtpw_write_frame_marking(&it, buf, room_of(3), &len) == RTPW_BAD_FIELD && has_written_nothing());
    CHECK(rtpw_write_frame_marking(&it, buf, room_of(2), &len) == RTPW_BAD_FIELD && has_written_nothing());

    /* without layers the low four bits say nothing */
    memset(&it, 0xEE, sizeof it);
    CHECK(rtpw_read_frame_marking(frame, 1, &it) == RTPW_OK);
    CHECK(it.start == 0 && it.end == 1 && it.independent == 0 && it.discardable == 1);
    CHECK(it.has_layers == 0 && it.base_layer_sync == 0 && it.temporal_id == 0 && it.layer_id == 0);
    CHECK(it.has_tl0_pic_idx == 0 && it.tl0_pic_idx == 0);
    /* what stands beside a has_ of 0 isn't looked at, and a flag counts as set where it isn't 0 */
    it.end = 2;
    it.discardable = 255;
    it.base_layer_sync = 1;
    it.temporal_id = 9;
    it.has_tl0_pic_idx = 1;
    CHECK(rtpw_write_frame_marking(&it, buf, room_of(1), &len) == RTPW_OK && has_written(last, 1));

    memset(&it, 0xEE, sizeof it);
    CHECK(rtpw_read_frame_marking(two, 2, &it) == RTPW_OK);
    CHECK(it.discardable == 1 && it.base_layer_sync == 0 && it.temporal_id == 7 && it.layer_id == 0x83);
    CHECK(it.has_tl0_pic_idx == 0 && it.tl0_pic_idx == 0);
    CHECK(rtpw_write_frame_marking(&it, buf, room_of(40), &len) == RTPW_OK && has_written(two, 2));
    it.start = 9;
    CHECK(rtpw_read_frame_marking(buf, 4, &it) == RTPW_BAD_FIELD && it.start == 9);
    CHECK(rtpw_read_frame_marking(NULL, 0, &it) == RTPW_BAD_FIELD && it.start == 9);
}

/* 0 0 0 0 C F R1 R0: the receiver undoes a turn clockwise of 0, 90, 180 or 270 degrees. */
static void orientations(void) {
    static const struct {
        uint8_t byte, camera, flip;
        uint16_t turn;
    } rows[] = {{0x00, RTPW_CAMERA_FRONT, 0, 0},
                {0x01, RTPW_CAMERA_FRONT, 0, 270},
                {0x0E, RTPW_CAMERA_BACK, 1, 180},
                {0x0B, RTPW_CAMERA_BACK, 0, 90},
                {0x07, RTPW_CAMERA_FRONT, 1, 90}};
    static const uint8_t finer[2] = {0xF8, 0};
    rtpw_orientation it = {0, 0, 0};
    size_t i;
    for (i = 0; i < sizeof rows / sizeof *rows; i++) {
        CHECK(rtpw_read_orientation(&rows[i].byte, 1, &it) == RTPW_OK);
        CHECK(it.camera == rows[i].camera && it.flip == rows[i].flip && it.turn == rows[i].turn);
        CHECK(rtpw_write_orientation(&it, buf, room_of(1), &len) == RTPW_OK && has_written(&rows[i].byte, 1));
    }
    CHECK(rtpw_read_orientation(finer, 1, &it) == RTPW_OK && it.camera == 1 && it.flip == 0 && it.turn == 0);
    it.turn = 45;
    CHECK(rtpw_read_orientation(finer, 2, &it) == RTPW_BAD_FIELD && it.turn == 45);
    CHECK(rtpw_read_orientation(NULL, 0, &it) == RTPW_BAD_FIELD && it.turn == 45);
    CHECK(rtpw_write_orientation(&it, buf, room_of(1), &len) == RTPW_BAD_FIELD && has_written_nothing());
    it.turn = 90;
    CHECK(rtpw_write_orientation(&it, buf, room_of(0), &len) == RTPW_SHORT_BUFFER && has_written_nothing());
    it.camera = 2;
    CHECK(rtpw_write_orientation(&it, buf, room_of(0), &len) == RTPW_BAD_FIELD && has_written_nothing());
}

static bool is_token(const char *text) {
    return rtpw_is_token((const uint8_t *)text, strlen(text));
}

/* token-char = %x21 / %x23-27 / %x2A-2B / %x2D-2E / %x30-39 / %x41-5A / %x5E-7E */
static void tokens(void) {
    static const char taken[] = "!#$%&'*+-.0189AZ^_`az{|}~", others[] = "\x01\x1F \"(),/:;<=>?@[\\]\x7F\x80\xFF";
    char text[2] = {0, 0};
    uint8_t long_one[256];
    size_t i;
    for (i = 0; taken[i] != '\0'; i++) {
        text[0] = taken[i];
        CHECK(is_token(text));
    }
    for (i = 0; others[i] != '\0'; i++) {
        text[0] = others[i];
        CHECK(!is_token(text));
    }
    memset(long_one, 'a', sizeof long_one);
    CHECK(is_token("cam-1") && is_token("video.0") && !is_token("video 0") && !is_token("\xC3\xA9"));
    CHECK(!rtpw_is_token(NULL, 0) && rtpw_is_token(long_one, 255) && !rtpw_is_token(long_one, 256));
    CHECK(!rtpw_is_token((const uint8_t *)"a", 2)); /* the zero behind it */
}

/* RFC 8852, 3: ASCII letters and digits alone, where a=rid also takes - and _ (RFC 8851, 10). */
static void stream_ids(void) {
    static const char others[] = "\x01 !#*+-./:;<=>?@[\\]^_`{|}~\x7F\x80\xFF";
    static const char taken[] = "0189AMZamz";
    char text[2] = {0, 0};
    uint8_t long_one[256];
    size_t i;
    for (i = 0; others[i] != '\0'; i++) {
        text[0] = others[i];
        CHECK(!rtpw_is_stream_id((const uint8_t *)text, 1));
    }
    for (i = 0; taken[i] != '\0'; i++) {
        text[0] = taken[i];
        CHECK(rtpw_is_stream_id((const uint8_t *)text, 1));
    }
    memset(long_one, '7', sizeof long_one);
    CHECK(!rtpw_is_stream_id(NULL, 0) && rtpw_is_stream_id(long_one, 255) && !rtpw_is_stream_id(long_one, 256));
    CHECK(!rtpw_is_stream_id((const uint8_t *)"cam-1", 5) && rtpw_is_stream_id((const uint8_t *)"cam1", 4));
    CHECK(!rtpw_is_stream_id((const uint8_t *)"a", 2)); /* the zero behind it */
    long_one[254] = '-';
    CHECK(!rtpw_is_stream_id(long_one, 255) && rtpw_is_stream_id(long_one, 254));
}

/* Six times of two bytes, after a byte of flags or without. */
static void timings(void) {
    static const uint8_t data[13] = {0x02, 0, 1, 0, 2, 0x12, 0x34, 0, 4, 0, 5, 0xFF, 0xFE};
    rtpw_timing it;
    memset(&it, 0xEE, sizeof it);
    CHECK(rtpw_read_timing(data, 13, &it) == RTPW_OK && it.has_flags == 1 && it.flags == 2);
    CHECK(it.encode_start == 1 && it.encode_finish == 2 && it.packetize_complete == 0x1234);
    CHECK(it.last_left_pacer == 4 && it.network == 5 && it.network2 == 0xFFFE);
    CHECK(rtpw_write_timing(&it, buf, room_of(13), &len) == RTPW_OK && has_written(data, 13));
    CHECK(rtpw_write_timing(&it, buf, room_of(12), &len) == RTPW_SHORT_BUFFER && has_written_nothing());
    memset(&it, 0xEE, sizeof it);
    CHECK(rtpw_read_timing(data + 1, 12, &it) == RTPW_OK && it.has_flags == 0 && it.flags == 0);
    CHECK(it.encode_start == 1 && it.network2 == 0xFFFE);
    it.flags = 3; /* not looked at */
    CHECK(rtpw_write_timing(&it, buf, room_of(12), &len) == RTPW_OK && has_written(data + 1, 12));
    it.flags = 9;
    CHECK(rtpw_read_timing(data, 11, &it) == RTPW_BAD_FIELD && it.flags == 9);
    CHECK(rtpw_read_timing(buf, 14, &it) == RTPW_BAD_FIELD && it.flags == 9);
}

/* Two bytes, and then a bit for the times and 15 bits with a count. */
static void transport_numbers(void) {
    static const uint8_t data[4] = {0x12, 0x34, 0x80, 0x05}, none[4] = {0x12, 0x34, 0x80, 0x00};
    static const uint8_t most[4] = {0xFF, 0xFE, 0x7F, 0xFF};
    rtpw_transport_number it;
    memset(&it, 0xEE, sizeof it);
    CHECK(rtpw_read_transport_number(data, 4, &it) == RTPW_OK && it.number == 0x1234);
    CHECK(it.has_request == 1 && it.timestamps == 1 && it.packets == 5);
    CHECK(rtpw_write_transport_number(&it, buf, room_of(4), &len) == RTPW_OK && has_written(data, 4));
    CHECK(rtpw_write_transport_number(&it, buf, room_of(3), &len) == RTPW_SHORT_BUFFER && has_written_nothing());
    memset(&it, 0xEE, sizeof it);
    CHECK(rtpw_read_transport_number(data, 2, &it) == RTPW_OK && it.number == 0x1234);
    CHECK(it.has_request == 0 && it.timestamps == 0 && it.packets == 0);
    memset(&it, 0xEE, sizeof it);
    CHECK(rtpw_read_transport_number(none, 4, &it) == RTPW_OK && it.number == 0x1234);
    CHECK(it.has_request == 1 && it.timestamps == 1 && it.packets == 0);
    CHECK(rtpw_write_transport_number(&it, buf, room_of(4), &len) == RTPW_OK && has_written(none, 4));
    it.has_request = 0;
    it.packets = 40000; /* not looked at */
    CHECK(rtpw_write_transport_number(&it, buf, room_of(2), &len) == RTPW_OK && has_written(data, 2));
    CHECK(rtpw_read_transport_number(most, 4, &it) == RTPW_OK && it.number == 0xFFFE);
    CHECK(it.has_request == 1 && it.timestamps == 0 && it.packets == 32767);
    CHECK(rtpw_write_transport_number(&it, buf, room_of(40), &len) == RTPW_OK && has_written(most, 4));
    it.packets = 32768;
    CHECK(rtpw_write_transport_number(&it, buf, room_of(4), &len) == RTPW_BAD_FIELD && has_written_nothing());
    it.packets = 65535;
    CHECK(rtpw_write_transport_number(&it, buf, room_of(3), &len) == RTPW_BAD_FIELD && has_written_nothing());
    it.packets = 0;
    CHECK(rtpw_write_transport_number(&it, buf, room_of(3), &len) == RTPW_SHORT_BUFFER && has_written_nothing());
    it.number = 9;
    CHECK(rtpw_read_transport_number(data, 3, &it) == RTPW_BAD_FIELD && it.number == 9);
}

/* A byte for each contributing source, with seven bits. */
static void mixer_levels(void) {
    static const uint8_t data[4] = {0x7F, 0x8A, 0x00, 0x05}, written[3] = {0x7F, 0x0A, 0x00};
    static const int8_t levels[3] = {-127, -10, 0}, loud[2] = {-1, 1}, low[2] = {-128, -1};
    static const int8_t many[256] = {-1, -2, -3, -4, -5, -6, -7, -8, -9, -10, -11, -12, -13, -14, -15};
    int8_t level = 55;
    CHECK(rtpw_read_mixer_level(data, 4, 3, 0, &level) == RTPW_OK && level == -127);
    CHECK(rtpw_read_mixer_level(data, 4, 3, 1, &level) == RTPW_OK && level == -10);
    CHECK(rtpw_read_mixer_level(data, 4, 3, 2, &level) == RTPW_OK && level == 0);
    level = 55;
    CHECK(rtpw_read_mixer_level(data, 4, 3, 3, &level) == RTPW_BAD_FIELD && level == 55); /* padding */
    CHECK(rtpw_read_mixer_level(data, 2, 3, 2, &level) == RTPW_BAD_FIELD && level == 55);
    CHECK(rtpw_read_mixer_level(data, 4, SIZE_MAX, SIZE_MAX - 1, &level) == RTPW_BAD_FIELD && level == 55);
    CHECK(rtpw_write_mixer_levels(levels, 3, buf, room_of(3), &len) == RTPW_OK && has_written(written, 3));
    CHECK(rtpw_write_mixer_levels(levels, 3, buf, room_of(2), &len) == RTPW_SHORT_BUFFER && has_written_nothing());
    CHECK(rtpw_write_mixer_levels(loud, 2, buf, room_of(2), &len) == RTPW_BAD_FIELD && has_written_nothing());
    CHECK(rtpw_write_mixer_levels(low, 2, buf, room_of(1), &len) == RTPW_BAD_FIELD && has_written_nothing());
    CHECK(rtpw_write_mixer_levels(NULL, 0, buf, room_of(0), &len) == RTPW_OK && has_written(written, 0));
    /* a packet has at most 15 sources */
    CHECK(rtpw_write_mixer_levels(many, 15, buf, room_of(40), &len) == RTPW_OK && len == 15 && buf[14] == 15);
    CHECK(rtpw_write_mixer_levels(many, 16, buf, room_of(40), &len) == RTPW_BAD_FIELD && has_written_nothing());
    CHECK(rtpw_write_mixer_levels(many, 256, buf, room_of(0), &len) == RTPW_BAD_FIELD && has_written_nothing());
}

/* The first moment of 1970, and one half of a second and 2^-32 seconds after it. */
static void ntp_times(void) {
    static const uint8_t data[8] = {0x83, 0xAA, 0x7E, 0x80, 0x80, 0x00, 0x00, 0x01};
    const uint64_t full = 0x83AA7E8080000001u, low = 0x00AA7E8080000001u, minute = (uint64_t)60 << 32;
    uint64_t time = 55;
    CHECK(rtpw_read_ntp_64(data, 8, &time) == RTPW_OK && time == full);
    CHECK(rtpw_read_ntp_56(data + 1, 7, &time) == RTPW_OK && time == low);
    time = 55;
    CHECK(rtpw_read_ntp_64(data, 7, &time) == RTPW_BAD_FIELD && rtpw_read_ntp_56(data, 8, &time) == RTPW_BAD_FIELD);
    CHECK(time == 55);
    CHECK(rtpw_write_ntp_64(full, buf, room_of(8), &len) == RTPW_OK && has_written(data, 8));
    CHECK(rtpw_write_ntp_64(full, buf, room_of(7), &len) == RTPW_SHORT_BUFFER && has_written_nothing());
    CHECK(rtpw_write_ntp_56(full, buf, room_of(8), &len) == RTPW_OK && has_written(data + 1, 7));
    CHECK(rtpw_write_ntp_56(full, buf, room_of(6), &len) == RTPW_SHORT_BUFFER && has_written_nothing());
    CHECK(rtpw_extend_ntp_56(full + minute, low) == full && rtpw_extend_ntp_56(full - minute, low) == full);
    /* the 24 bits of the seconds begin again between the two; and 2^55 off, which is as near on either side */
    CHECK(rtpw_extend_ntp_56(0x00FFFFFF80000000u, 0x80000000u) == 0x0100000080000000u);
    CHECK(rtpw_extend_ntp_56(0x0100000080000000u, 0x00FFFFFF80000000u) == 0x00FFFFFF80000000u);
    CHECK(rtpw_extend_ntp_56(0x0200000000000000u, 0x0080000000000000u) == 0x0280000000000000u);
}

/* BT.709 with all numbers; and BT.2020 with PQ, made on a screen with the primaries of P3, a white of D65 and 0.005 to
 * 1,000 cd/m^2. */
static void color_spaces(void) {
    static const uint8_t plain[4] = {1, 1, 1, 0x24};
    static const uint8_t data[28] = {9,    16,   9,    0x15, 0x03, 0xE8, 0x00, 0x32, 0x84, 0xD0, 0x3E, 0x80, 0x33,
                                     0xC2, 0x86, 0xC4, 0x1D, 0x4C, 0x0B, 0xB8, 0x3D, 0x13, 0x40, 0x42, 0x03, 0xE7,
                                     0x01, 0x90};
    uint8_t changed[4] = {1, 1, 1, 0xE4};
    rtpw_color_space it;
    memset(&it, 0xEE, sizeof it);
    CHECK(rtpw_read_color_space(data, 28, &it) == RTPW_OK);
    CHECK(it.primaries == 9 && it.transfer == 16 && it.matrix == 9 && it.range == RTPW_RANGE_LIMITED);
    CHECK(it.horizontal == RTPW_SITING_COLLOCATED && it.vertical == RTPW_SITING_COLLOCATED && it.has_hdr == 1);
    CHECK(it.hdr.luminance_max == 1000 && it.hdr.luminance_min == 50);
    CHECK(it.hdr.red.x == 34000 && it.hdr.red.y == 16000 && it.hdr.green.x == 13250 && it.hdr.green.y == 34500);
    CHECK(it.hdr.blue.x == 7500 && it.hdr.blue.y == 3000 && it.hdr.white.x == 15635 && it.hdr.white.y == 16450);
    CHECK(it.hdr.max_content_light_level == 999 && it.hdr.max_frame_average_light_level == 400);
    CHECK(rtpw_write_color_space(&it, buf, room_of(28), &len) == RTPW_OK && has_written(data, 28));
    CHECK(rtpw_write_color_space(&it, buf, room_of(27), &len) == RTPW_SHORT_BUFFER && has_written_nothing());
    it.has_hdr = 0; /* what it has isn't looked at */
    CHECK(rtpw_write_color_space(&it, buf, room_of(4), &len) == RTPW_OK && has_written(data, 4));

    CHECK(rtpw_read_color_space(plain, 4, &it) == RTPW_OK && it.range == RTPW_RANGE_FULL && it.has_hdr == 0);
    CHECK(it.horizontal == RTPW_SITING_COLLOCATED && it.vertical == RTPW_SITING_UNSPECIFIED);
    CHECK(it.hdr.luminance_max == 0 && it.hdr.white.y == 0 && it.hdr.max_frame_average_light_level == 0);
    /* two bits that say nothing */
    CHECK(rtpw_read_color_space(changed, 4, &it) == RTPW_OK && it.range == RTPW_RANGE_FULL);
    CHECK(rtpw_write_color_space(&it, buf, room_of(40), &len) == RTPW_OK && has_written(plain, 4));
    it.range = 4;
    CHECK(rtpw_write_color_space(&it, buf, room_of(3), &len) == RTPW_BAD_FIELD && has_written_nothing());
    it.range = RTPW_RANGE_DERIVED;
    it.vertical = 3;
    CHECK(rtpw_write_color_space(&it, buf, room_of(4), &len) == RTPW_BAD_FIELD && has_written_nothing());
    it.primaries = 77;
    changed[3] = 0x2C;
    CHECK(rtpw_read_color_space(changed, 4, &it) == RTPW_BAD_FIELD && it.primaries == 77);
    changed[3] = 0x23;
    CHECK(rtpw_read_color_space(changed, 4, &it) == RTPW_BAD_FIELD && it.primaries == 77);
    CHECK(rtpw_read_color_space(data, 27, &it) == RTPW_BAD_FIELD && it.primaries == 77);
    CHECK(rtpw_read_color_space(data, 5, &it) == RTPW_BAD_FIELD && it.primaries == 77);
}

/* Start, end and the template in a byte, the number in two; then the flag of a structure. */
static void dependency_descriptors(void) {
    static const uint8_t data[4] = {0x83, 0x01, 0x02, 0x80}, end[3] = {0x7F, 0xFF, 0xFE};
    static const uint8_t none[4] = {0xFF, 0xFF, 0xFF, 0x7F};
    rtpw_dependency_descriptor it;
    CHECK(rtpw_read_dependency_descriptor(data, 4, &it) == RTPW_OK);
    CHECK(it.start_of_frame == 1 && it.end_of_frame == 0 && it.template_id == 3 && it.frame_number == 0x0102);
    CHECK(rtpw_write_dependency_descriptor(&it, buf, room_of(3), &len) == RTPW_OK && has_written(data, 3));
    CHECK(rtpw_write_dependency_descriptor(&it, buf, room_of(2), &len) == RTPW_SHORT_BUFFER && has_written_nothing());
    CHECK(rtpw_read_dependency_descriptor(end, 3, &it) == RTPW_OK);
    CHECK(it.start_of_frame == 0 && it.end_of_frame == 1 && it.template_id == 63 && it.frame_number == 0xFFFE);
    it.end_of_frame = 200;
    CHECK(rtpw_write_dependency_descriptor(&it, buf, room_of(40), &len) == RTPW_OK && has_written(end, 3));
    it.template_id = 64;
    CHECK(rtpw_write_dependency_descriptor(&it, buf, room_of(2), &len) == RTPW_BAD_FIELD && has_written_nothing());
    CHECK(rtpw_read_dependency_descriptor(data, 2, &it) == RTPW_BAD_FIELD && it.template_id == 64);
    CHECK(rtpw_has_structure(data, 4) && !rtpw_has_structure(data, 3) && !rtpw_has_structure(none, 4));
    CHECK(!rtpw_has_structure(NULL, 0));
}

/* Put into a packet, and read where it lies. */
static void in_a_packet(void) {
    uint8_t packet[40] = {0x80, 96, 0, 1, 0, 0, 0x27, 0x10, 0, 0, 0, 3};
    static const uint8_t block[8] = {0xBE, 0xDE, 0, 1, 0x52, 0xFF, 0xFF, 0xA6};
    size_t packet_len = 12;
    int32_t offset = 0;
    rtpw_packet parts;
    rtpw_element element;
    const uint8_t *data;
    CHECK(rtpw_write_transmission_offset(-90, buf, room_of(3), &len) == RTPW_OK);
    CHECK(rtpw_put_element(packet, sizeof packet, &packet_len, 5, buf, len, RTPW_ANY_FORM) == RTPW_OK);
    CHECK(packet_len == 20 && memcmp(packet + 12, block, 8) == 0);
    CHECK(rtpw_packet_parse(packet, packet_len, &parts) == RTPW_OK);
    CHECK(rtpw_last_element(packet + parts.body_at, parts.body_len, parts.block_form, 5, &element) == RTPW_OK);
    data = packet + parts.body_at + element.data_at;
    CHECK(rtpw_read_transmission_offset(data, element.data_len, &offset) == RTPW_OK);
    CHECK(offset == -90 && parts.timestamp + (uint32_t)offset == 9910);
}

int main(void) {
    send_times();
    transmission_offsets();
    frame_markings();
    orientations();
    tokens();
    stream_ids();
    timings();
    transport_numbers();
    mixer_levels();
    ntp_times();
    color_spaces();
    dependency_descriptors();
    in_a_packet();
    return failed;
}
