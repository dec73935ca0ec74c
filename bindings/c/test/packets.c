/* The calls on a packet where it lies. The expected values are worked out by hand from RFC 3550, 5.1
 * and RFC 8285, 4.2 and 4.3. */
#include "../rtp_wire.h"

#include <stdio.h>
#include <string.h>

static int failed = 0;

#define CHECK(holds) \
    do { \
        if (!(holds)) { \
            printf("line %d: %s\n", __LINE__, #holds); \
            failed = 1; \
        } \
    } while (0)

/* V=2, P, X, CC=2; M, PT=33; 47,000; 10,000; 44; the sources 1 and 2; a block of two words; a payload
 * of 3 bytes and 2 of padding. */
static const uint8_t SAMPLE[41] = {
    0xB2, 0xA1, 0xB7, 0x98, 0x00, 0x00, 0x27, 0x10, 0x00, 0x00, 0x00, 0x2C, 0x00, 0x00,
    0x00, 0x01, 0x00, 0x00, 0x00, 0x02, 0xBE, 0xDE, 0x00, 0x02, 0x10, 0xAA, 0x21, 0xBB,
    0xCC, 0x10, 0xDD, 0x00, 0x01, 0x02, 0x03, 0x00, 0x02, 0xEE, 0xEE, 0xEE, 0xEE};
static const size_t LEN = 37;

static void is_read(void) {
    rtpw_packet packet;
    memset(&packet, 0xA5, sizeof packet);
    CHECK(sizeof packet == 64);
    CHECK(rtpw_packet_parse(SAMPLE, LEN, &packet) == RTPW_OK);
    CHECK(packet.payload_at == 32);
    CHECK(packet.payload_len == 5);
    CHECK(packet.unpadded_len == 3);
    CHECK(packet.body_at == 24);
    CHECK(packet.body_len == 8);
    CHECK(packet.timestamp == 10000);
    CHECK(packet.ssrc == 44);
    CHECK(packet.sequence_number == 47000);
    CHECK(packet.payload_type == 33);
    CHECK(packet.csrc_count == 2);
    CHECK(packet.marker == 1);
    CHECK(packet.has_padding == 1);
    CHECK(packet.padding_fits == 1);
    CHECK(packet.block_form == RTPW_ONE_BYTE_FORM);
    CHECK(packet.block_profile == 0xBEDE);
}

static void padding_is_too_long(void) {
    uint8_t bytes[37];
    rtpw_packet packet;
    memcpy(bytes, SAMPLE, LEN);
    bytes[36] = 6;
    CHECK(rtpw_packet_parse(bytes, LEN, &packet) == RTPW_OK);
    CHECK(packet.payload_len == 5);
    CHECK(packet.padding_fits == 0);
    CHECK(packet.unpadded_len == 0);
}

static void is_refused(void) {
    uint8_t bytes[37];
    rtpw_packet packet, same;
    memset(&packet, 0x5A, sizeof packet);
    memcpy(&same, &packet, sizeof packet);
    memcpy(bytes, SAMPLE, LEN);
    CHECK(rtpw_packet_parse(bytes, 0, &packet) == RTPW_CUT_FIXED_PART);
    CHECK(rtpw_packet_parse(bytes, 11, &packet) == RTPW_CUT_FIXED_PART);
    CHECK(rtpw_packet_parse(bytes, 19, &packet) == RTPW_CUT_SOURCES);
    CHECK(rtpw_packet_parse(bytes, 23, &packet) == RTPW_CUT_BLOCK_HEADER);
    CHECK(rtpw_packet_parse(bytes, 31, &packet) == RTPW_CUT_BLOCK);
    bytes[21] = 0xDF; /* of another form */
    CHECK(rtpw_packet_parse(bytes, 31, &packet) == RTPW_CUT_BLOCK);
    bytes[0] = 0x72;
    CHECK(rtpw_packet_parse(bytes, LEN, &packet) == RTPW_OTHER_VERSION);
    CHECK(memcmp(&packet, &same, sizeof packet) == 0);
}

static void fields_are_set(void) {
    uint8_t bytes[41];
    rtpw_packet packet;
    memcpy(bytes, SAMPLE, sizeof bytes);
    CHECK(rtpw_set_marker(bytes, LEN, false) == RTPW_OK);
    CHECK(bytes[1] == 0x21);
    CHECK(rtpw_set_payload_type(bytes, LEN, 96) == RTPW_OK);
    CHECK(rtpw_set_payload_type(bytes, LEN, 128) == RTPW_BAD_FIELD);
    CHECK(rtpw_set_sequence_number(bytes, LEN, 0x1234) == RTPW_OK);
    CHECK(rtpw_set_timestamp(bytes, LEN, 0x56789ABC) == RTPW_OK);
    CHECK(rtpw_set_ssrc(bytes, LEN, 0xDEF01234) == RTPW_OK);
    CHECK(rtpw_packet_parse(bytes, LEN, &packet) == RTPW_OK);
    CHECK(packet.marker == 0);
    CHECK(packet.payload_type == 96);
    CHECK(packet.sequence_number == 0x1234);
    CHECK(packet.timestamp == 0x56789ABC);
    CHECK(packet.ssrc == 0xDEF01234);
    CHECK(memcmp(bytes + 12, SAMPLE + 12, sizeof bytes - 12) == 0);
    CHECK(rtpw_set_csrc(bytes, LEN, 1, 0xA1B2C3D4) == RTPW_OK);
    CHECK(bytes[15] == 1 && bytes[16] == 0xA1 && bytes[17] == 0xB2 && bytes[18] == 0xC3 && bytes[19] == 0xD4);
    CHECK(rtpw_set_csrc(bytes, LEN, 2, 5) == RTPW_NONE && rtpw_set_csrc(bytes, LEN, SIZE_MAX, 5) == RTPW_NONE);
    CHECK(memcmp(bytes + 20, SAMPLE + 20, sizeof bytes - 20) == 0);
    CHECK(rtpw_set_ssrc(bytes, 31, 1) == RTPW_CUT_BLOCK);
    CHECK(bytes[11] == 0x34);
}

static void several_fields_are_set(void) {
    uint8_t bytes[41];
    rtpw_fields fields;
    memcpy(bytes, SAMPLE, sizeof bytes);
    memset(&fields, 0, sizeof fields);
    CHECK(rtpw_set_fields(bytes, LEN, &fields) == RTPW_OK);
    CHECK(memcmp(bytes, SAMPLE, sizeof bytes) == 0);
    /* M stays, and the SSRC: what stands beside a flag that is 0 isn't looked at */
    fields.has_payload_type = fields.has_sequence_number = 1;
    fields.payload_type = 8;
    fields.sequence_number = 0x1234;
    fields.ssrc = 77;
    CHECK(rtpw_set_fields(bytes, LEN, &fields) == RTPW_OK);
    CHECK(bytes[0] == SAMPLE[0] && bytes[1] == 0x88 && bytes[2] == 0x12 && bytes[3] == 0x34);
    CHECK(memcmp(bytes + 4, SAMPLE + 4, sizeof bytes - 4) == 0);
    fields.has_marker = fields.has_timestamp = fields.has_ssrc = 0xFF;
    fields.timestamp = 0x56789ABC;
    fields.ssrc = 0xDEF01234;
    CHECK(rtpw_set_fields(bytes, LEN, &fields) == RTPW_OK);
    CHECK(bytes[1] == 0x08 && bytes[4] == 0x56 && bytes[7] == 0xBC && bytes[8] == 0xDE && bytes[11] == 0x34);
    CHECK(memcmp(bytes + 12, SAMPLE + 12, sizeof bytes - 12) == 0);
    fields.payload_type = 128;
    fields.marker = 1;
    CHECK(rtpw_set_fields(bytes, LEN, &fields) == RTPW_BAD_FIELD && rtpw_set_fields(bytes, 3, &fields) == RTPW_BAD_FIELD);
    fields.has_payload_type = 0;
    CHECK(rtpw_set_fields(bytes, 31, &fields) == RTPW_CUT_BLOCK);
    CHECK(bytes[1] == 0x08);
    CHECK(rtpw_set_fields(bytes, LEN, &fields) == RTPW_OK);
    CHECK(bytes[1] == 0x88);
}

static void elements_are_set(void) {
    uint8_t bytes[41];
    const uint8_t data[2] = {0xEE, 0xFF};
    memcpy(bytes, SAMPLE, sizeof bytes);
    /* the last element of id 1 has one byte, DD at 30 */
    CHECK(rtpw_set_element(bytes, LEN, 1, data, 1) == RTPW_OK);
    CHECK(bytes[30] == 0xEE && bytes[25] == 0xAA);
    CHECK(rtpw_set_element(bytes, LEN, 1, data, 2) == RTPW_NONE);
    CHECK(rtpw_set_element(bytes, LEN, 3, data, 1) == RTPW_NONE);
    CHECK(rtpw_set_element(bytes, 11, 1, data, 1) == RTPW_CUT_FIXED_PART);
    CHECK(rtpw_remove_element(bytes, LEN, 1) == RTPW_OK);
    CHECK(bytes[24] == 0 && bytes[25] == 0 && bytes[26] == 0x21 && bytes[27] == 0xBB);
    CHECK(bytes[28] == 0xCC && bytes[29] == 0 && bytes[30] == 0 && bytes[31] == 0);
    CHECK(rtpw_remove_element(bytes, LEN, 1) == RTPW_NONE);
    CHECK(memcmp(bytes + 32, SAMPLE + 32, sizeof bytes - 32) == 0);
    CHECK(memcmp(bytes, SAMPLE, 24) == 0);
}

/* The three elements of the body, told at once. */
static void elements_are_listed(const uint8_t *body) {
    rtpw_element each[5] = {{0}};
    each[3].end = 77;
    CHECK(rtpw_next_elements(body, 8, RTPW_ONE_BYTE_FORM, 0, each, 5) == 3);
    CHECK(each[0].id == 1 && each[0].data_at == 1 && each[0].data_len == 1 && each[0].end == 2);
    CHECK(each[1].id == 2 && each[1].data_at == 3 && each[1].data_len == 2 && each[1].end == 5);
    CHECK(each[2].id == 1 && each[2].data_at == 6 && each[2].data_len == 1 && each[2].end == 7);
    CHECK(each[3].end == 77);
    CHECK(rtpw_next_elements(body, 8, RTPW_ONE_BYTE_FORM, 2, each, 1) == 1 && each[0].end == 5 && each[1].end == 5);
    CHECK(rtpw_next_elements(body, 8, RTPW_ONE_BYTE_FORM, 5, each, 0) == 0);
    CHECK(rtpw_next_elements(body, 8, RTPW_ONE_BYTE_FORM, 8, each, 5) == 0);
    CHECK(rtpw_next_elements(body, 8, RTPW_ONE_BYTE_FORM, 9, each, 5) == 0);
    CHECK(rtpw_next_elements(body, 8, RTPW_OTHER_FORM, 0, each, 5) == 0);
    CHECK(each[0].end == 5 && each[2].end == 7);
}

static void elements_are_found(void) {
    const uint8_t *body = SAMPLE + 24;
    rtpw_element element = {0};
    CHECK(sizeof element == 32);
    CHECK(rtpw_next_element(body, 8, RTPW_ONE_BYTE_FORM, element.end, &element) == RTPW_OK);
    CHECK(element.id == 1 && element.data_at == 1 && element.data_len == 1 && element.end == 2);
    CHECK(rtpw_next_element(body, 8, RTPW_ONE_BYTE_FORM, element.end, &element) == RTPW_OK);
    CHECK(element.id == 2 && element.data_at == 3 && element.data_len == 2 && element.end == 5);
    CHECK(rtpw_next_element(body, 8, RTPW_ONE_BYTE_FORM, element.end, &element) == RTPW_OK);
    CHECK(element.id == 1 && element.data_at == 6 && element.data_len == 1 && element.end == 7);
    CHECK(rtpw_next_element(body, 8, RTPW_ONE_BYTE_FORM, element.end, &element) == RTPW_NONE);
    CHECK(rtpw_next_element(body, 8, RTPW_ONE_BYTE_FORM, 8, &element) == RTPW_NONE);
    CHECK(rtpw_next_element(body, 8, RTPW_ONE_BYTE_FORM, 9, &element) == RTPW_BAD_FIELD);
    CHECK(rtpw_next_element(body, 8, RTPW_NO_BLOCK, 0, &element) == RTPW_BAD_FIELD);
    CHECK(rtpw_next_element(body, 8, 3, 0, &element) == RTPW_BAD_FIELD);
    CHECK(element.id == 1 && element.data_at == 6 && element.data_len == 1 && element.end == 7);
    CHECK(rtpw_last_element(body, 8, RTPW_ONE_BYTE_FORM, 2, &element) == RTPW_OK);
    CHECK(element.id == 2 && element.data_at == 3 && element.data_len == 2 && element.end == 5);
    CHECK(rtpw_last_element(body, 8, RTPW_ONE_BYTE_FORM, 1, &element) == RTPW_OK);
    CHECK(element.id == 1 && element.data_at == 6 && element.data_len == 1 && element.end == 7);
    CHECK(rtpw_last_element(body, 8, RTPW_ONE_BYTE_FORM, 3, &element) == RTPW_NONE);
    CHECK(rtpw_last_element(body, 8, 0xFF, 1, &element) == RTPW_BAD_FIELD);
    elements_are_listed(body);
    /* the same bytes in the two-byte form: the header 10 AA announces 170 bytes, which are not there */
    CHECK(rtpw_next_element(body, 8, RTPW_TWO_BYTE_FORM, 0, &element) == RTPW_NONE);
    /* from 5 on: the element 16 would have 221 bytes; from 7 on there is padding alone */
    CHECK(rtpw_next_element(body, 8, RTPW_TWO_BYTE_FORM, 7, &element) == RTPW_NONE);
}

static void values_are_read(void) {
    /* two-byte form: a send time of one second; a capture time, and an offset of -0.5 s; 90 degrees; a
     * screen; 258 ticks; a frame marking; an id whose number is that of no kind */
    static const uint8_t BODY[44] = {0x03, 0x03, 0x04, 0x00, 0x00, 0x04, 0x10, 0xE0, 0x00, 0x00, 0x01,
                                     0x80, 0x00, 0x00, 0x00, 0xFF, 0xFF, 0xFF, 0xFF, 0x80, 0x00, 0x00,
                                     0x00, 0x05, 0x01, 0x0B, 0x06, 0x01, 0x01, 0x07, 0x04, 0x00, 0x00,
                                     0x01, 0x02, 0x08, 0x04, 0x80, 0x01, 0x02, 0x03, 0xC8, 0x01, 0x55};
    rtpw_map map = {{0}};
    rtpw_values values, same;
    memset(&values, 0xA5, sizeof values);
    memcpy(&same, &values, sizeof values);
    CHECK(sizeof map == 256 && sizeof values == 136);
    map.kind[1] = RTPW_KIND_AUDIO_LEVEL;
    map.kind[2] = RTPW_KIND_TRANSPORT_NUMBER;
    map.kind[3] = RTPW_KIND_ABS_SEND_TIME;
    map.kind[4] = RTPW_KIND_ABS_CAPTURE_TIME;
    map.kind[5] = RTPW_KIND_VIDEO_ORIENTATION;
    map.kind[6] = RTPW_KIND_VIDEO_CONTENT_TYPE;
    map.kind[7] = RTPW_KIND_TRANSMISSION_OFFSET;
    map.kind[8] = RTPW_KIND_FRAME_MARKING;
    map.kind[200] = 77;
    CHECK(rtpw_values_read(SAMPLE + 24, 8, RTPW_NO_BLOCK, &map, &values) == RTPW_BAD_FIELD);
    CHECK(memcmp(&values, &same, sizeof values) == 0);
    CHECK(rtpw_values_read(SAMPLE + 24, 8, RTPW_ONE_BYTE_FORM, &map, &values) == RTPW_OK);
    /* the last element of id 1 is DD: voice, and 93 below the overload point */
    CHECK(values.has_audio_level == 1 && values.audio_level == -93);
    CHECK(values.has_voice_activity == 1 && values.voice_activity == 1);
    CHECK(values.has_transport_number == 1 && values.transport_number == 0xBBCC);
    CHECK(values.has_send_time == 0 && values.send_time == 0);
    CHECK(values.has_video_orientation == 0 && values.has_frame_marking == 0);
    CHECK(rtpw_values_read(BODY, sizeof BODY, RTPW_TWO_BYTE_FORM, &map, &values) == RTPW_OK);
    CHECK(values.has_send_time == 1 && values.send_time == 1000000);
    CHECK(values.has_capture_time == 1 && values.capture_time == UINT64_C(0xE000000180000000));
    CHECK(values.has_capture_offset == 1 && values.capture_offset == INT64_C(-2147483648));
    CHECK(values.has_video_orientation == 1 && values.video_orientation == 90);
    CHECK(values.has_video_content_type == 1 && values.video_content_type == 1);
    CHECK(values.has_transmission_offset == 1 && values.transmission_offset == 258);
    CHECK(values.has_frame_marking == 1 && values.frame_marking == 0x80010203);
    CHECK(values.has_audio_level == 0 && values.audio_level == 0);
    CHECK(values.has_voice_activity == 0 && values.has_transport_number == 0);
    map.kind[3] = RTPW_KIND_LAYERS;
    map.kind[4] = RTPW_KIND_NONE;
    CHECK(rtpw_values_read(BODY, sizeof BODY, RTPW_TWO_BYTE_FORM, &map, &values) == RTPW_OK);
    CHECK(values.has_send_time == 0 && values.has_capture_time == 0);
}

static void numbers_are_taken(void) {
    static const rtpw_receiver NEW = {0};
    rtpw_receiver receiver = NEW;
    uint64_t number = 7;
    CHECK(sizeof receiver == 32);
    CHECK(rtpw_receiver_number_of(&receiver, 65534) == 65534);
    CHECK(rtpw_receiver_receive(&receiver, 65534, &number) == RTPW_OK && number == 65534);
    CHECK(rtpw_receiver_receive(&receiver, 65535, &number) == RTPW_OK && number == 65535);
    CHECK(rtpw_receiver_receive(&receiver, 0, &number) == RTPW_OK && number == 65536);
    CHECK(receiver.highest == 65536 && receiver.recorded_low == 7 && receiver.recorded_high == 0);
    CHECK(rtpw_receiver_receive(&receiver, 65534, &number) == RTPW_REFUSED && number == 65536);
    CHECK(rtpw_receiver_number_of(&receiver, 65535) == 65535);
    CHECK(!rtpw_receiver_accepts(&receiver, 65535));
    CHECK(rtpw_receiver_accepts(&receiver, 65409) && !rtpw_receiver_accepts(&receiver, 65408));
    rtpw_receiver_record(&receiver, 65472);
    CHECK(receiver.recorded_low == 7 && receiver.recorded_high == 1);
    rtpw_receiver_record(&receiver, 65600);
    CHECK(receiver.highest == 65600 && receiver.recorded_low == 1 && receiver.recorded_high == 7);
}

static void receivers_start(void) {
    rtpw_receiver receiver;
    uint64_t number;
    memset(&receiver, 0xFF, sizeof receiver);
    CHECK(rtpw_receiver_start(&receiver, UINT64_C(1) << 48) == RTPW_BAD_FIELD);
    CHECK(receiver.started == 0xFF);
    CHECK(rtpw_receiver_start(&receiver, 1) == RTPW_OK);
    CHECK(receiver.highest == 65536 && receiver.started == 0);
    CHECK(receiver.recorded_low == 0 && receiver.recorded_high == 0);
    CHECK(rtpw_receiver_receive(&receiver, 5, &number) == RTPW_OK && number == 65541);
    CHECK(rtpw_receiver_receive(&receiver, 65533, &number) == RTPW_OK && number == 65533);
    CHECK(rtpw_receiver_receive(&receiver, 6, &number) == RTPW_OK && number == 65542);
    CHECK(rtpw_receiver_start(&receiver, (UINT64_C(1) << 48) - 1) == RTPW_OK);
    CHECK(rtpw_receiver_number_of(&receiver, 9) == UINT64_MAX - 65526);
    CHECK(rtpw_extend_u16(65535, 0) == 65536);
    CHECK(rtpw_extend_u16(65538, 1) == 65537);
    CHECK(rtpw_extend_u16(0, 65533) == UINT64_MAX - 2);
}

/* Half the modulus away, on either side, the rollover count stays. */
static void numbers_are_extended(void) {
    CHECK(rtpw_extend_u8(255, 0) == 256 && rtpw_extend_u8(258, 255) == 255);
    CHECK(rtpw_extend_u8(256, 128) == 384 && rtpw_extend_u8(256, 129) == 129);
    CHECK(rtpw_extend_u15(32767, 0) == 32768 && rtpw_extend_u15(32768, 16385) == 16385);
    CHECK(rtpw_extend_u15(5, 0x8006) == 6); /* the sixteenth bit */
    CHECK(rtpw_extend_u32(UINT32_MAX, 1) == UINT64_C(0x100000001));
    CHECK(rtpw_extend_u32(UINT64_C(0x100000000), UINT32_MAX) == UINT32_MAX);
    CHECK(rtpw_extend_u32(0, UINT32_MAX) == UINT64_MAX);
}

/* The highest number counts as taken, whatever its bit says. */
static void highest_is_taken(void) {
    rtpw_receiver receiver = {70000, 0, 0, 7};
    uint64_t number = 3;
    CHECK(!rtpw_receiver_accepts(&receiver, 70000) && rtpw_receiver_accepts(&receiver, 69999));
    CHECK(rtpw_receiver_receive(&receiver, 70000 - 65536, &number) == RTPW_REFUSED && number == 3);
    CHECK(receiver.recorded_low == 0 && receiver.started == 7);
    rtpw_receiver_record(&receiver, 70000);
    CHECK(receiver.highest == 70000 && receiver.recorded_low == 1 && receiver.started == 1);
}

/* RFC 5761, 4: packet types 192 to 223 of version 2. */
static void rtcp_is_told_apart(void) {
    static const uint8_t RECEIVER_REPORT[8] = {0x80, 0xC9, 0x00, 0x01, 0x00, 0x00, 0x00, 0x2C};
    static const struct {
        uint8_t first, second;
        bool is_rtcp;
    } rows[] = {
        {0x80, 200, true}, {0x81, 201, true}, {0xA1, 202, true}, {0x80, 205, true}, {0xBF, 206, true},
        {0x80, 192, true}, {0x80, 223, true}, {0x80, 191, false}, {0x80, 224, false},
        /* payload types 63, 64, 95 and 96 without M; with M they are 191, 192, 223 and 224 */
        {0x80, 63, false}, {0x80, 64, false}, {0x80, 95, false}, {0x80, 96, false},
        {0x00, 200, false}, {0x40, 200, false}, {0x7F, 200, false}, {0xC0, 200, false}, {0xFF, 200, false},
        {0x80, 0, false}, {0x80, 255, false},
    };
    uint8_t bytes[28] = {0};
    rtpw_packet packet;
    size_t i;
    for (i = 0; i < sizeof rows / sizeof *rows; i++) {
        bytes[0] = rows[i].first;
        bytes[1] = rows[i].second;
        CHECK(rtpw_is_rtcp(bytes, sizeof bytes) == rows[i].is_rtcp);
        CHECK(rtpw_is_rtcp(bytes, 2) == rows[i].is_rtcp);
        CHECK(!rtpw_is_rtcp(bytes, 1) && !rtpw_is_rtcp(bytes, 0));
    }
    CHECK(rtpw_is_rtcp(RECEIVER_REPORT, sizeof RECEIVER_REPORT));
    /* of RTP it would be M and payload type 72 */
    bytes[0] = 0x80;
    bytes[1] = 200;
    CHECK(rtpw_packet_parse(bytes, sizeof bytes, &packet) == RTPW_OK);
    CHECK(packet.marker == 1 && packet.payload_type == 72);
}

/* The header's own bytes are a packet, and what they become, with the payload behind it, is the packet. */
static void header_is_changed_alone(void) {
    uint8_t whole[37], header[32];
    const uint8_t data[1] = {0x77};
    static const rtpw_new_ids IDS = {{0, 5, 0}};
    rtpw_packet packet;
    memcpy(whole, SAMPLE, LEN);
    memcpy(header, SAMPLE, sizeof header);
    CHECK(rtpw_packet_parse(header, sizeof header, &packet) == RTPW_OK);
    CHECK(packet.payload_at == 32 && packet.payload_len == 0 && packet.body_at == 24 && packet.ssrc == 44);
    CHECK(rtpw_set_ssrc(header, sizeof header, 99) == RTPW_OK && rtpw_set_ssrc(whole, LEN, 99) == RTPW_OK);
    CHECK(rtpw_set_csrc(header, sizeof header, 1, 8) == RTPW_OK && rtpw_set_csrc(whole, LEN, 1, 8) == RTPW_OK);
    CHECK(rtpw_set_element(header, sizeof header, 1, data, 1) == RTPW_OK);
    CHECK(rtpw_set_element(whole, LEN, 1, data, 1) == RTPW_OK);
    CHECK(rtpw_renumber(header, sizeof header, &IDS) == RTPW_OK && rtpw_renumber(whole, LEN, &IDS) == RTPW_OK);
    CHECK(rtpw_set_padding(header, sizeof header, false) == RTPW_OK && rtpw_set_padding(whole, LEN, false) == RTPW_OK);
    CHECK(memcmp(header, whole, sizeof header) == 0 && header[11] == 99 && header[24] == 0x50);
    CHECK(memcmp(whole + 32, SAMPLE + 32, 5) == 0);
}

static void originals_are_passed_on(void) {
    uint8_t bytes[3] = {0x01, 0x02, 0x03};
    uint16_t number = 9;
    CHECK(rtpw_read_original(bytes, 1, &number) == RTPW_SHORT_BUFFER && number == 9);
    CHECK(rtpw_read_original(bytes, 3, &number) == RTPW_OK && number == 258);
    CHECK(rtpw_write_original(bytes, 1, 65538) == RTPW_SHORT_BUFFER && bytes[0] == 0x01);
    CHECK(rtpw_write_original(bytes, 3, 65538) == RTPW_OK);
    CHECK(bytes[0] == 0x00 && bytes[1] == 0x02 && bytes[2] == 0x03);
}

/* The stream id 10 becomes the repaired one, 11; one that was there goes. The two bytes of padding are room enough. */
static void retransmissions_are_made(void) {
    static const uint8_t PACKET[32] = {0xB0, 0xE0, 0xFF, 0xFE, 1, 2, 3, 4, 5, 6, 7, 8, 0xBE, 0xDE, 0, 2, 0x40, 0x61,
                                       0xA1, 0x68, 0x69, 0xB0, 0x78, 0, 0xCC, 0xDD, 0xEE, 0, 2, 0x77, 0x77, 0x77};
    static const uint8_t SENT[32] = {0x90, 0xE3, 0, 1, 1, 2, 3, 4, 9, 10, 11, 12, 0xBE, 0xDE, 0, 2, 0x40, 0x61,
                                     0xB1, 0x68, 0x69, 0, 0, 0, 0xFF, 0xFE, 0xCC, 0xDD, 0xEE, 0x77, 0x77, 0x77};
    static const uint8_t BACK[27] = {0x90, 0xE0, 0xFF, 0xFE, 1, 2, 3, 4, 5, 6, 7, 8, 0xBE, 0xDE, 0, 2, 0x40, 0x61,
                                     0xA1, 0x68, 0x69, 0, 0, 0, 0xCC, 0xDD, 0xEE};
    uint8_t buf[32];
    size_t len = 29;
    rtpw_map map;
    rtpw_new_ids there, back;
    rtpw_map_standard(&map);
    rtpw_new_ids_to_retransmission(&map, &there);
    rtpw_new_ids_from_retransmission(&map, &back);
    CHECK(there.id[0] == 0 && there.id[10] == 11 && there.id[11] == 0 && there.id[4] == 4 && there.id[200] == 200);
    CHECK(back.id[0] == 0 && back.id[10] == 0 && back.id[11] == 10 && back.id[4] == 4 && back.id[200] == 200);
    memcpy(buf, PACKET, sizeof buf);
    CHECK(rtpw_to_retransmission(buf, 28, &len, 0x090A0B0C, 99, 1, &there) == RTPW_BAD_FIELD && len == 29);
    CHECK(rtpw_to_retransmission(buf, 29, &len, 0x090A0B0C, 128, 1, &there) == RTPW_BAD_FIELD && len == 29);
    CHECK(memcmp(buf, PACKET, sizeof buf) == 0);
    CHECK(rtpw_to_retransmission(buf, 29, &len, 0x090A0B0C, 99, 1, &there) == RTPW_OK && len == 29);
    CHECK(memcmp(buf, SENT, sizeof buf) == 0);
    CHECK(rtpw_to_retransmission(buf, 30, &len, 7, 98, 2, &there) == RTPW_SHORT_BUFFER && len == 29);
    CHECK(memcmp(buf, SENT, sizeof buf) == 0);
    CHECK(rtpw_from_retransmission(buf, sizeof buf, &len, 0x05060708, 96, &back) == RTPW_OK && len == 27);
    CHECK(memcmp(buf, BACK, sizeof BACK) == 0 && memcmp(buf + 29, SENT + 29, 3) == 0);
    len = 25;
    CHECK(rtpw_from_retransmission(buf, sizeof buf, &len, 1, 2, &back) == RTPW_NONE && len == 25);
    len = 11;
    CHECK(rtpw_from_retransmission(buf, sizeof buf, &len, 1, 2, &back) == RTPW_CUT_FIXED_PART && len == 11);
    CHECK(memcmp(buf, BACK, sizeof BACK) == 0);
}

/* What a camera sends of a recording (ONVIF, streaming specification): after 0xABAC and the length 3 the seconds
 * and the fraction of an NTP time, C, E and D in the top bits of a byte, CSeq, and two bytes of padding. */
static const uint8_t CAMERA[31] = {0x90, 0xE0, 0x00, 0x05, 0x00, 0x01, 0x5F, 0x90, 0x00, 0x00, 0x00, 0x2C,
                                   0xAB, 0xAC, 0x00, 0x03, 0xE5, 0x8B, 0x3C, 0x40, 0x80, 0x00, 0x00, 0x00,
                                   0xE0, 0x07, 0x00, 0x00, 0x41, 0x42, 0x43};

static void other_forms_are_read(void) {
    static const uint16_t PROFILES[] = {0xABAC, 0xC0DE, 0xC2DE, 0x0000, 0x0FFF, 0x1010, 0xBEDF, 0xFFFF};
    const rtpw_map map = {{0}};
    uint8_t bytes[31];
    rtpw_packet packet;
    rtpw_header header;
    rtpw_layers layers;
    size_t i;
    memcpy(bytes, CAMERA, sizeof bytes);
    for (i = 0; i < sizeof PROFILES / sizeof *PROFILES; i++) {
        bytes[12] = (uint8_t)(PROFILES[i] >> 8);
        bytes[13] = (uint8_t)PROFILES[i];
        CHECK(rtpw_packet_parse(bytes, sizeof bytes, &packet) == RTPW_OK);
        CHECK(packet.block_form == RTPW_OTHER_FORM && packet.block_profile == PROFILES[i]);
        CHECK(packet.body_at == 16 && packet.body_len == 12);
        CHECK(packet.payload_at == 28 && packet.payload_len == 3 && packet.unpadded_len == 3);
        CHECK(packet.sequence_number == 5 && packet.timestamp == 90000 && packet.ssrc == 44 && packet.payload_type == 96);
        CHECK(rtpw_packet_parse(bytes, 28, &packet) == RTPW_OK && packet.payload_len == 0);
        CHECK(rtpw_packet_parse(bytes, 27, &packet) == RTPW_CUT_BLOCK);
        CHECK(rtpw_packet_parse(bytes, 15, &packet) == RTPW_CUT_BLOCK_HEADER);
        /* no header is read; the form comes before the block's end */
        CHECK(rtpw_parse(bytes, sizeof bytes, &map, &header) == RTPW_UNKNOWN_FORM);
        CHECK(rtpw_parse(bytes, 27, &map, &header) == RTPW_UNKNOWN_FORM);
        CHECK(rtpw_parse(bytes, 15, &map, &header) == RTPW_CUT_BLOCK_HEADER);
        CHECK(rtpw_parse_layers(bytes, sizeof bytes, &map, &header, &layers) == RTPW_UNKNOWN_FORM);
    }
    /* the empty block that Cryptex adds where there are sources alone */
    bytes[12] = 0xC0;
    bytes[13] = 0xDE;
    bytes[15] = 0;
    CHECK(rtpw_packet_parse(bytes, sizeof bytes, &packet) == RTPW_OK);
    CHECK(packet.block_form == RTPW_OTHER_FORM && packet.body_at == 16 && packet.body_len == 0 && packet.payload_at == 16);
    /* without a block there is no profile */
    bytes[0] = 0x80;
    CHECK(rtpw_packet_parse(bytes, sizeof bytes, &packet) == RTPW_OK);
    CHECK(packet.block_form == RTPW_NO_BLOCK && packet.block_profile == 0);
}

static void other_forms_have_no_elements(void) {
    static const rtpw_new_ids NONE_LEFT = {{0}};
    const rtpw_map map = {{0}};
    uint8_t bytes[40] = {0};
    size_t len = sizeof CAMERA;
    rtpw_element element;
    rtpw_values values;
    memcpy(bytes, CAMERA, sizeof CAMERA);
    CHECK(rtpw_next_element(CAMERA + 16, 12, RTPW_OTHER_FORM, 0, &element) == RTPW_BAD_FIELD);
    CHECK(rtpw_last_element(CAMERA + 16, 12, RTPW_OTHER_FORM, 14, &element) == RTPW_BAD_FIELD);
    CHECK(rtpw_values_read(CAMERA + 16, 12, RTPW_OTHER_FORM, &map, &values) == RTPW_BAD_FIELD);
    CHECK(rtpw_set_element(bytes, len, 14, CAMERA, 6) == RTPW_NONE);
    CHECK(rtpw_remove_element(bytes, len, 14) == RTPW_NONE);
    CHECK(rtpw_renumber(bytes, len, &NONE_LEFT) == RTPW_OK);
    CHECK(rtpw_put_element(bytes, sizeof bytes, &len, 1, CAMERA, 1, RTPW_ANY_FORM) == RTPW_UNKNOWN_FORM);
    CHECK(rtpw_put_element(bytes, sizeof bytes, &len, 20, CAMERA, 1, RTPW_ONE_BYTE_FORM) == RTPW_UNKNOWN_FORM);
    CHECK(rtpw_put_element(bytes, sizeof bytes, &len, 1, CAMERA, 1, RTPW_OTHER_FORM) == RTPW_BAD_FIELD);
    CHECK(rtpw_compact(bytes, sizeof bytes, &len) == RTPW_OK);
    CHECK(len == sizeof CAMERA && memcmp(bytes, CAMERA, len) == 0);
}

/* Fields change, and the block stays, also in a retransmission and back. */
static void other_forms_are_changed(void) {
    static const rtpw_new_ids NONE_LEFT = {{0}};
    uint8_t bytes[33];
    size_t len = sizeof CAMERA;
    memcpy(bytes, CAMERA, sizeof CAMERA);
    CHECK(rtpw_set_marker(bytes, len, false) == RTPW_OK && bytes[1] == 0x60);
    CHECK(rtpw_set_payload_type(bytes, len, 97) == RTPW_OK && bytes[1] == 0x61);
    CHECK(rtpw_set_sequence_number(bytes, len, 0x0102) == RTPW_OK && bytes[2] == 1 && bytes[3] == 2);
    CHECK(rtpw_set_timestamp(bytes, len, 0x03040506) == RTPW_OK && bytes[4] == 3 && bytes[7] == 6);
    CHECK(rtpw_set_ssrc(bytes, len, 0x0708090A) == RTPW_OK && bytes[8] == 7 && bytes[11] == 10);
    CHECK(rtpw_set_csrc(bytes, len, 0, 1) == RTPW_NONE);
    CHECK(rtpw_set_padding(bytes, len, true) == RTPW_OK && bytes[0] == 0xB0);
    bytes[30] = 1;
    CHECK(rtpw_remove_padding(bytes, len, &len) == RTPW_OK && len == 30 && bytes[0] == 0x90);
    CHECK(memcmp(bytes + 12, CAMERA + 12, 18) == 0);
    CHECK(rtpw_to_retransmission(bytes, sizeof bytes, &len, 77, 99, 7, &NONE_LEFT) == RTPW_OK && len == 32);
    CHECK(memcmp(bytes + 12, CAMERA + 12, 16) == 0);
    CHECK(bytes[28] == 1 && bytes[29] == 2 && bytes[30] == 0x41 && bytes[31] == 0x42);
    CHECK(rtpw_from_retransmission(bytes, sizeof bytes, &len, 0x0708090A, 97, &NONE_LEFT) == RTPW_OK && len == 30);
    CHECK(bytes[1] == 0x61 && bytes[3] == 2 && memcmp(bytes + 12, CAMERA + 12, 18) == 0);
}

int main(void) {
    is_read();
    padding_is_too_long();
    is_refused();
    fields_are_set();
    several_fields_are_set();
    elements_are_set();
    elements_are_found();
    values_are_read();
    numbers_are_taken();
    receivers_start();
    numbers_are_extended();
    highest_is_taken();
    rtcp_is_told_apart();
    header_is_changed_alone();
    originals_are_passed_on();
    retransmissions_are_made();
    other_forms_are_read();
    other_forms_have_no_elements();
    other_forms_are_changed();
    return failed;
}
