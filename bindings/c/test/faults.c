/* Which fault is told first, what is looked at where it seems to be of no use, and NULL where there are no
 * bytes. The expected values are worked out by hand. */
#include "../rtp_wire.h"

#include <stdio.h>
#include <string.h>

static int failed = 0;

#define CHECK(holds) \
    do { \
        if (!(holds)) { \
            printf("line %d: %s\n", __LINE__, #holds); \
            failed = 1; \
        } \
    } while (0)

/* V=2, P, X, CC=2; M, PT=33; 47,000; 10,000; 44; the sources 1 and 2; a block of two words; a payload
 * of 3 bytes and 2 of padding. */
static const uint8_t SAMPLE[41] = {
    0xB2, 0xA1, 0xB7, 0x98, 0x00, 0x00, 0x27, 0x10, 0x00, 0x00, 0x00, 0x2C, 0x00, 0x00,
    0x00, 0x01, 0x00, 0x00, 0x00, 0x02, 0xBE, 0xDE, 0x00, 0x02, 0x10, 0xAA, 0x21, 0xBB,
    0xCC, 0x10, 0xDD, 0x00, 0x01, 0x02, 0x03, 0x00, 0x02, 0xEE, 0xEE, 0xEE, 0xEE};
static const size_t LEN = 37;

/* The order of causes: an argument's own fault, then the packet, then what it allows, then room. */
static void first_fault_is_told(void) {
    uint8_t bytes[37];
    static const rtpw_new_ids TOO_HIGH = {{0, 15, 15}};
    const uint8_t data[1] = {0};
    rtpw_element element = {0};
    size_t count = 5;
    memcpy(bytes, SAMPLE, LEN);
    CHECK(rtpw_set_payload_type(bytes, 3, 128) == RTPW_BAD_FIELD);
    CHECK(rtpw_set_payload_type(bytes, 3, 127) == RTPW_CUT_FIXED_PART);
    CHECK(rtpw_set_csrc(bytes, 31, 99, 1) == RTPW_CUT_BLOCK && rtpw_set_csrc(bytes, LEN, 99, 1) == RTPW_NONE);
    CHECK(rtpw_set_element(bytes, 31, 9, data, 1) == RTPW_CUT_BLOCK);
    CHECK(rtpw_remove_element(bytes, 31, 9) == RTPW_CUT_BLOCK);
    CHECK(rtpw_renumber(bytes, 31, &TOO_HIGH) == RTPW_CUT_BLOCK);
    CHECK(rtpw_renumber(bytes, LEN, &TOO_HIGH) == RTPW_LONG_ID);
    size_t len = LEN + 1;
    CHECK(rtpw_to_retransmission(bytes, LEN, &len, 1, 2, 3, &TOO_HIGH) == RTPW_BAD_FIELD && len == LEN + 1);
    len = 31;
    CHECK(rtpw_to_retransmission(bytes, LEN, &len, 1, 128, 3, &TOO_HIGH) == RTPW_BAD_FIELD);
    CHECK(rtpw_to_retransmission(bytes, LEN, &len, 1, 2, 3, &TOO_HIGH) == RTPW_CUT_BLOCK);
    len = LEN;
    CHECK(rtpw_to_retransmission(bytes, LEN, &len, 1, 2, 3, &TOO_HIGH) == RTPW_LONG_ID && len == LEN);
    CHECK(rtpw_next_element(bytes, 0, 3, 1, &element) == RTPW_BAD_FIELD);
    CHECK(rtpw_next_element(bytes, 0, 1, 1, &element) == RTPW_BAD_FIELD);
    CHECK(rtpw_next_element(bytes, 0, 1, 0, &element) == RTPW_NONE);
    CHECK(rtpw_pad(bytes, 12, 12, 3, 0, &count) == RTPW_BAD_FIELD);
    CHECK(rtpw_pad(bytes, 12, 12, 0, 0, &count) == RTPW_BAD_FIELD);
    CHECK(rtpw_pad(bytes, 12, 12, 3, 4, &count) == RTPW_SHORT_BUFFER && count == 5);
    CHECK(memcmp(bytes, SAMPLE, LEN) == 0);
}

/* An element of no bytes still begins within the data. */
static void data_of_no_bytes(void) {
    static const rtpw_header HEADER = {0};
    const uint8_t data[2] = {7, 8};
    uint8_t buf[64];
    size_t len = 9;
    rtpw_element element = {2, 0, 0, 3};
    CHECK(rtpw_write_elements(data, 2, &element, 1, RTPW_TWO_BYTE_FORM, buf, sizeof buf, &len) == RTPW_OK);
    CHECK(len == 2 && buf[0] == 3 && buf[1] == 0);
    CHECK(rtpw_write_with(&HEADER, data, 2, &element, 1, buf, sizeof buf, &len) == RTPW_OK && len == 20);
    CHECK(buf[12] == 0x10 && buf[13] == 0 && buf[15] == 1 && buf[16] == 3 && buf[17] == 0);
    element.data_at = 3;
    CHECK(rtpw_write_elements(data, 2, &element, 1, RTPW_TWO_BYTE_FORM, buf, sizeof buf, &len) == RTPW_BAD_FIELD);
    CHECK(rtpw_write_with(&HEADER, data, 2, &element, 1, buf, sizeof buf, &len) == RTPW_BAD_FIELD);
    element.data_at = SIZE_MAX;
    CHECK(rtpw_write_with(&HEADER, data, 2, &element, 1, buf, sizeof buf, &len) == RTPW_BAD_FIELD && len == 20);
}

/* The values are looked at where there is no block as well, and where they aren't mapped. */
static void values_without_a_block(void) {
    static const rtpw_map NONE = {{0}};
    rtpw_header header = {0};
    uint8_t buf[64];
    size_t len = 9;
    header.values.has_video_orientation = 1;
    header.values.video_orientation = 90;
    CHECK(rtpw_write(&NONE, &header, buf, sizeof buf, &len) == RTPW_OK && len == 12 && buf[0] == 0x80);
    header.values.video_orientation = 91;
    CHECK(rtpw_write(&NONE, &header, buf, sizeof buf, &len) == RTPW_BAD_FIELD);
    CHECK(rtpw_write(&NONE, &header, buf, 3, &len) == RTPW_BAD_FIELD);
    CHECK(rtpw_wire_len(&NONE, &header, &len) == RTPW_BAD_FIELD && len == 12);
    CHECK(rtpw_write_with(&header, buf, 0, NULL, 0, buf, sizeof buf, &len) == RTPW_OK && len == 16);
    header.values.has_video_orientation = 0;
    CHECK(rtpw_write(&NONE, &header, buf, 3, &len) == RTPW_SHORT_BUFFER && len == 16);
}

/* What the usual map and the new ids have at index 0, which is looked at by nobody. */
static void index_0_is_written(void) {
    rtpw_map map, to;
    rtpw_new_ids ids;
    memset(&map, 0xFF, sizeof map);
    memset(&ids, 0xFF, sizeof ids);
    rtpw_map_standard(&map);
    CHECK(map.kind[0] == RTPW_KIND_NONE && map.kind[1] == RTPW_KIND_AUDIO_LEVEL && map.kind[255] == 0);
    to = map;
    map.kind[0] = to.kind[0] = RTPW_KIND_MID;
    rtpw_new_ids_between(&map, &to, &ids);
    CHECK(ids.id[0] == 0 && ids.id[4] == 4 && ids.id[5] == 0);
}

/* NULL where there are no bytes, and no elements. */
static void null_is_no_bytes(void) {
    static const rtpw_map MAP = {{0, RTPW_KIND_MID}};
    static const rtpw_new_ids IDS = {{0, 2}};
    static const rtpw_header HEADER = {0};
    uint8_t bytes[20] = {0x90, 0, 0, 1, 0, 0, 0, 2, 0, 0, 0, 3, 0x10, 0, 0, 1, 5, 0, 0, 0};
    rtpw_packet packet;
    rtpw_header header;
    rtpw_layers layers;
    rtpw_values values;
    rtpw_element element, two = {0, 0, 0, 2};
    uint16_t original;
    size_t len = 9;
    CHECK(!rtpw_is_rtcp(NULL, 0));
    CHECK(rtpw_packet_parse(NULL, 0, &packet) == RTPW_CUT_FIXED_PART);
    CHECK(rtpw_parse(NULL, 0, &MAP, &header) == RTPW_CUT_FIXED_PART);
    CHECK(rtpw_parse_layers(NULL, 0, &MAP, &header, &layers) == RTPW_CUT_FIXED_PART);
    memset(&layers, 0, sizeof layers);
    CHECK(rtpw_write_layers(&MAP, &HEADER, &layers, NULL, 0, &len) == RTPW_SHORT_BUFFER && len == 9);
    CHECK(rtpw_set_marker(NULL, 0, true) == RTPW_CUT_FIXED_PART);
    CHECK(rtpw_set_payload_type(NULL, 0, 1) == RTPW_CUT_FIXED_PART);
    CHECK(rtpw_set_sequence_number(NULL, 0, 1) == RTPW_CUT_FIXED_PART);
    CHECK(rtpw_set_timestamp(NULL, 0, 1) == RTPW_CUT_FIXED_PART);
    CHECK(rtpw_set_ssrc(NULL, 0, 1) == RTPW_CUT_FIXED_PART);
    CHECK(rtpw_set_csrc(NULL, 0, 0, 1) == RTPW_CUT_FIXED_PART);
    CHECK(rtpw_set_element(NULL, 0, 1, NULL, 0) == RTPW_CUT_FIXED_PART);
    CHECK(rtpw_remove_element(NULL, 0, 1) == RTPW_CUT_FIXED_PART);
    CHECK(rtpw_renumber(NULL, 0, &IDS) == RTPW_CUT_FIXED_PART);
    CHECK(rtpw_set_padding(NULL, 0, true) == RTPW_CUT_FIXED_PART);
    CHECK(rtpw_remove_padding(NULL, 0, &len) == RTPW_CUT_FIXED_PART && len == 9);
    CHECK(rtpw_set_element(bytes, sizeof bytes, 5, NULL, 0) == RTPW_OK);
    CHECK(rtpw_next_element(NULL, 0, RTPW_ONE_BYTE_FORM, 0, &element) == RTPW_NONE);
    CHECK(rtpw_next_element(NULL, 0, RTPW_TWO_BYTE_FORM, 1, &element) == RTPW_BAD_FIELD);
    CHECK(rtpw_last_element(NULL, 0, RTPW_TWO_BYTE_FORM, 1, &element) == RTPW_NONE);
    CHECK(rtpw_values_read(NULL, 0, RTPW_ONE_BYTE_FORM, &MAP, &values) == RTPW_OK && values.has_mid == 0);
    CHECK(rtpw_kind_of_uri(NULL, 0) == RTPW_KIND_NONE);
    CHECK(rtpw_uri_of_kind(RTPW_KIND_MID, NULL, 0, &len) == RTPW_SHORT_BUFFER && len == 9);
    CHECK(rtpw_write(&MAP, &HEADER, NULL, 0, &len) == RTPW_SHORT_BUFFER && len == 9);
    CHECK(rtpw_write_with(&HEADER, NULL, 0, NULL, 0, NULL, 0, &len) == RTPW_SHORT_BUFFER && len == 9);
    CHECK(rtpw_write_with(&HEADER, NULL, 0, NULL, 0, bytes, sizeof bytes, &len) == RTPW_OK && len == 16);
    CHECK(rtpw_write_with(&HEADER, NULL, 0, &two, 1, bytes, sizeof bytes, &len) == RTPW_OK && len == 20);
    CHECK(rtpw_write_elements(NULL, 0, &two, 1, RTPW_TWO_BYTE_FORM, NULL, 0, &len) == RTPW_SHORT_BUFFER);
    CHECK(rtpw_write_elements(NULL, 0, NULL, 0, RTPW_ONE_BYTE_FORM, NULL, 0, &len) == RTPW_OK && len == 0);
    len = 9;
    CHECK(rtpw_pad(NULL, 0, 0, 1, 1, &len) == RTPW_SHORT_BUFFER && len == 9);
    CHECK(rtpw_pad(NULL, 0, 0, 0, 1, &len) == RTPW_OK && len == 0);
    CHECK(rtpw_read_original(NULL, 0, &original) == RTPW_SHORT_BUFFER);
    CHECK(rtpw_write_original(NULL, 0, 7) == RTPW_SHORT_BUFFER);
    CHECK(rtpw_to_retransmission(NULL, 0, &len, 1, 2, 3, &IDS) == RTPW_CUT_FIXED_PART && len == 0);
    CHECK(rtpw_from_retransmission(NULL, 0, &len, 1, 2, &IDS) == RTPW_CUT_FIXED_PART && len == 0);
}

int main(void) {
    first_fault_is_told();
    data_of_no_bytes();
    values_without_a_block();
    index_0_is_written();
    null_is_no_bytes();
    return failed;
}
