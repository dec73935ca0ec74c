/* Padding: made, taken off, and of no bytes. The expected values are worked out by hand from RFC 3550, 5.1. */
#include "../rtp_wire.h"

#include <stdio.h>
#include <string.h>

static int failed = 0;

#define CHECK(holds) \
    do { \
        if (!(holds)) { \
            printf("line %d: %s\n", __LINE__, #holds); \
            failed = 1; \
        } \
    } while (0)

/* V=2, P, X, CC=2; M, PT=33; 47,000; 10,000; 44; the sources 1 and 2; a block of two words; a payload
 * of 3 bytes and 2 of padding. */
static const uint8_t SAMPLE[41] = {
    0xB2, 0xA1, 0xB7, 0x98, 0x00, 0x00, 0x27, 0x10, 0x00, 0x00, 0x00, 0x2C, 0x00, 0x00,
    0x00, 0x01, 0x00, 0x00, 0x00, 0x02, 0xBE, 0xDE, 0x00, 0x02, 0x10, 0xAA, 0x21, 0xBB,
    0xCC, 0x10, 0xDD, 0x00, 0x01, 0x02, 0x03, 0x00, 0x02, 0xEE, 0xEE, 0xEE, 0xEE};
static const size_t LEN = 37;

static void padding_is_made(void) {
    uint8_t bytes[254];
    size_t count = 77, i;
    memset(bytes, 0x11, sizeof bytes);
    bytes[0] = 0x80;
    CHECK(rtpw_pad(bytes, sizeof bytes, 12, 3, 0, &count) == RTPW_BAD_FIELD);
    CHECK(rtpw_pad(bytes, 15, 12, 3, 4, &count) == RTPW_SHORT_BUFFER);
    CHECK(rtpw_pad(bytes, 251, 12, 255, 1, &count) == RTPW_SHORT_BUFFER);
    CHECK(rtpw_pad(bytes, 239, 0, 3, 1000, &count) == RTPW_SHORT_BUFFER);
    CHECK(rtpw_pad(bytes, sizeof bytes, SIZE_MAX, 3, 4, &count) == RTPW_SHORT_BUFFER);
    CHECK(rtpw_pad(bytes, sizeof bytes, SIZE_MAX - 3, 3, 4, &count) == RTPW_SHORT_BUFFER);
    CHECK(count == 77 && bytes[0] == 0x80 && bytes[12] == 0x11);
    CHECK(rtpw_pad(bytes, sizeof bytes, 12, 0, 4, &count) == RTPW_OK && count == 0 && bytes[0] == 0x80);
    count = 77;
    CHECK(rtpw_pad(bytes, 0, SIZE_MAX, 0, 4, &count) == RTPW_OK && count == 0 && bytes[0] == 0x80);
    CHECK(rtpw_pad(bytes, 16, 12, 3, 4, &count) == RTPW_OK && count == 4);
    CHECK(bytes[0] == 0xA0 && bytes[11] == 0x11 && bytes[12] == 0 && bytes[13] == 0);
    CHECK(bytes[14] == 0 && bytes[15] == 4);
    for (i = 16; i < sizeof bytes; i++) {
        CHECK(bytes[i] == 0x11);
    }
    CHECK(rtpw_pad(bytes, 252, 12, 255, 1, &count) == RTPW_OK && count == 240 && bytes[251] == 240);
    CHECK(bytes[250] == 0 && bytes[252] == 0x11);
}

static void padding_is_taken_off(void) {
    uint8_t bytes[37];
    size_t len = 9;
    rtpw_packet packet;
    memcpy(bytes, SAMPLE, LEN);
    CHECK(rtpw_remove_padding(bytes, 31, &len) == RTPW_CUT_BLOCK && len == 9);
    bytes[36] = 6;
    CHECK(rtpw_remove_padding(bytes, LEN, &len) == RTPW_BAD_FIELD && len == 9 && bytes[0] == 0xB2);
    bytes[36] = 2;
    CHECK(rtpw_remove_padding(bytes, LEN, &len) == RTPW_OK && len == 35 && bytes[0] == 0x92);
    CHECK(memcmp(bytes + 1, SAMPLE + 1, LEN - 1) == 0);
    CHECK(rtpw_packet_parse(bytes, len, &packet) == RTPW_OK);
    CHECK(packet.has_padding == 0 && packet.payload_len == 3 && packet.unpadded_len == 3);
    CHECK(rtpw_remove_padding(bytes, LEN, &len) == RTPW_OK && len == 37 && bytes[0] == 0x92);
    CHECK(rtpw_set_padding(bytes, LEN, true) == RTPW_OK && memcmp(bytes, SAMPLE, LEN) == 0);
    CHECK(rtpw_set_padding(bytes, LEN, true) == RTPW_OK && memcmp(bytes, SAMPLE, LEN) == 0);
    CHECK(rtpw_set_padding(bytes, LEN, false) == RTPW_OK && bytes[0] == 0x92);
    CHECK(rtpw_set_padding(bytes, 11, true) == RTPW_CUT_FIXED_PART && bytes[0] == 0x92);
}

/* A last byte of 0 and a payload of no bytes: nothing is taken off. */
static void padding_of_no_bytes(void) {
    uint8_t bytes[14] = {0xA0, 0, 0, 1, 0, 0, 0, 2, 0, 0, 0, 3, 7, 0};
    rtpw_packet packet;
    size_t len = 9;
    CHECK(rtpw_packet_parse(bytes, 14, &packet) == RTPW_OK);
    CHECK(packet.padding_fits == 1 && packet.payload_len == 2 && packet.unpadded_len == 2);
    CHECK(packet.body_len == 0 && packet.body_at == 12 && packet.block_form == RTPW_NO_BLOCK);
    CHECK(rtpw_packet_parse(bytes, 12, &packet) == RTPW_OK);
    CHECK(packet.padding_fits == 1 && packet.payload_len == 0 && packet.unpadded_len == 0);
    CHECK(rtpw_remove_padding(bytes, 12, &len) == RTPW_OK && len == 12 && bytes[0] == 0x80);
    bytes[0] = 0xA0;
    CHECK(rtpw_remove_padding(bytes, 14, &len) == RTPW_OK && len == 14 && bytes[0] == 0x80);
}

int main(void) {
    padding_is_made();
    padding_is_taken_off();
    padding_of_no_bytes();
    return failed;
}
