/* Many datagrams in one call, each status once, and many sequence numbers. The expected values are worked out by hand
 * from RFC 3550, 5.1, RFC 8285, 4.2, RFC 5761, 4, and RFC 3711, 3.3.1 and 3.3.2. */
#include "../rtp_wire.h"

#include <stdio.h>
#include <string.h>

static int failed = 0;

#define CHECK(holds) \
    do { \
        if (!(holds)) { \
            printf("line %d: %s\n", __LINE__, #holds); \
            failed = 1; \
        } \
    } while (0)

/* Timestamp 0x01020304, SSRC 0x0A0B0C0D. */
#define REST 1, 2, 3, 4, 10, 11, 12, 13

static const uint8_t BYTES[] = {
    /* 0: none of a datagram */
    0xEE,
    /* 1: payload type 96, two bytes of payload */
    0x80, 0x60, 0x12, 0x34, REST, 'p', 'q',
    /* 15: M, payload type 111; level -42, with voice */
    0x90, 0xEF, 0x00, 0x07, REST, 0xBE, 0xDE, 0, 1, 0x10, 0xAA, 0, 0, 'r',
    /* 36: RTCP, too short for RTP */
    0x80, 0xC9, 0x00, 0x01, 0, 0, 0, 44,
    /* 44: RTCP, which as RTP has a source */
    0x81, 0xC9, 0x00, 0x02, REST,
    /* 56: version 1 */
    0x40, 0x60, 0x00, 0x01, REST,
    /* 68: a block of another form */
    0x90, 0x60, 0x00, 0x02, REST, 0xAB, 0xAC, 0, 0,
    /* 84: a block of two words, of which one is there */
    0x90, 0x60, 0x00, 0x03, REST, 0xBE, 0xDE, 0, 2, 0x10, 0xAA, 0, 0,
    /* 104: payload type 97, nothing after the header */
    0x80, 0x61, 0x00, 0x04, REST};
enum { SIZE = 116 };

/* Where a datagram lies, and what is told of it: the statuses of rtpw_packet_parse and rtpw_parse, and the payload. */
static const struct {
    size_t at, len;
    int32_t status, header_status;
    uint8_t is_rtcp;
    uint16_t number;
    size_t payload_at, payload_len;
} ROWS[] = {
    {1, 14, RTPW_OK, RTPW_OK, 0, 0x1234, 12, 2},
    {36, 8, RTPW_CUT_FIXED_PART, RTPW_CUT_FIXED_PART, 1, 0, 0, 0},
    {15, 21, RTPW_OK, RTPW_OK, 0, 7, 20, 1},
    {56, 12, RTPW_OTHER_VERSION, RTPW_OTHER_VERSION, 0, 0, 0, 0},
    {44, 12, RTPW_CUT_SOURCES, RTPW_CUT_SOURCES, 1, 0, 0, 0},
    {15, 15, RTPW_CUT_BLOCK_HEADER, RTPW_CUT_BLOCK_HEADER, 0, 0, 0, 0},
    {68, 16, RTPW_OK, RTPW_UNKNOWN_FORM, 0, 2, 16, 0},
    {84, 20, RTPW_CUT_BLOCK, RTPW_CUT_BLOCK, 0, 0, 0, 0},
    /* a byte past the end; no byte, past the end; no byte, at the end */
    {105, 12, RTPW_BAD_FIELD, RTPW_BAD_FIELD, 0, 0, 0, 0},
    {117, 0, RTPW_BAD_FIELD, RTPW_BAD_FIELD, 0, 0, 0, 0},
    {116, 0, RTPW_CUT_FIXED_PART, RTPW_CUT_FIXED_PART, 0, 0, 0, 0},
    /* at + len is 1 in 64 bits */
    {37, (size_t)-36, RTPW_BAD_FIELD, RTPW_BAD_FIELD, 0, 0, 0, 0},
    {(size_t)-1, 2, RTPW_BAD_FIELD, RTPW_BAD_FIELD, 0, 0, 0, 0},
    /* with the front of the next one, which is its source; over all others; once more */
    {44, 16, RTPW_OK, RTPW_OK, 1, 2, 16, 0},
    {1, 115, RTPW_OK, RTPW_OK, 0, 0x1234, 12, 103},
    {1, 14, RTPW_OK, RTPW_OK, 0, 0x1234, 12, 2},
    {104, 12, RTPW_OK, RTPW_OK, 0, 4, 12, 0}};
enum { COUNT = sizeof ROWS / sizeof *ROWS };

static void packets(void) {
    rtpw_datagram told[COUNT], before;
    size_t i;
    CHECK(sizeof BYTES == SIZE);
    memset(told, 0x5A, sizeof told);
    before = told[0];
    for (i = 0; i < COUNT; i++) {
        told[i].at = ROWS[i].at;
        told[i].len = ROWS[i].len;
    }
    rtpw_packet_parse_many(BYTES, SIZE, told, COUNT);
    for (i = 0; i < COUNT; i++) {
        CHECK(told[i].at == ROWS[i].at && told[i].len == ROWS[i].len);
        CHECK(told[i].status == ROWS[i].status && told[i].is_rtcp == ROWS[i].is_rtcp);
        if (ROWS[i].status == RTPW_OK) {
            CHECK(told[i].packet.sequence_number == ROWS[i].number && told[i].packet.timestamp == 0x01020304);
            CHECK(told[i].packet.payload_at == ROWS[i].payload_at && told[i].packet.payload_len == ROWS[i].payload_len);
        } else {
            CHECK(memcmp(&told[i].packet, &before.packet, sizeof before.packet) == 0);
        }
    }
    CHECK(told[0].packet.payload_type == 96 && told[0].packet.marker == 0 && told[0].packet.ssrc == 0x0A0B0C0D);
    CHECK(BYTES[told[0].at + told[0].packet.payload_at] == 'p' && BYTES[told[2].at + told[2].packet.payload_at] == 'r');
    CHECK(told[2].packet.payload_type == 111 && told[2].packet.marker == 1 && told[2].packet.body_at == 16);
    CHECK(told[6].packet.block_form == RTPW_OTHER_FORM && told[6].packet.block_profile == 0xABAC);
    CHECK(told[13].packet.csrc_count == 1 && told[13].packet.payload_type == 73 && told[13].packet.marker == 1);
}

static void headers(void) {
    rtpw_datagram_header told[COUNT], before;
    rtpw_map map;
    size_t i;
    memset(&map, 0, sizeof map);
    CHECK(rtpw_map_set(&map, 1, RTPW_KIND_AUDIO_LEVEL) == RTPW_OK);
    memset(told, 0x5A, sizeof told);
    before = told[0];
    for (i = 0; i < COUNT; i++) {
        told[i].at = ROWS[i].at;
        told[i].len = ROWS[i].len;
    }
    rtpw_parse_many(BYTES, SIZE, &map, told, COUNT);
    for (i = 0; i < COUNT; i++) {
        CHECK(told[i].at == ROWS[i].at && told[i].len == ROWS[i].len);
        CHECK(told[i].status == ROWS[i].header_status && told[i].is_rtcp == ROWS[i].is_rtcp);
        if (ROWS[i].header_status == RTPW_OK) {
            CHECK(told[i].header.sequence_number == ROWS[i].number && told[i].header.ssrc == 0x0A0B0C0D);
            CHECK(told[i].header.header_len == ROWS[i].payload_at);
            CHECK(told[i].header.values.has_audio_level == (i == 2) && told[i].header.has_extension == (i == 2));
        } else {
            CHECK(memcmp(&told[i].header, &before.header, sizeof before.header) == 0);
        }
    }
    CHECK(told[2].header.values.audio_level == -42 && told[2].header.values.voice_activity == 1);
    CHECK(told[13].header.csrc_count == 1 && told[13].header.csrc[0] == 0x40600001);
}

/* RTCP is told by the status, before what it would be as RTP. */
static void wholes(void) {
    rtpw_whole_datagram told[COUNT], before;
    rtpw_map map;
    size_t i;
    memset(&map, 0, sizeof map);
    CHECK(rtpw_map_set(&map, 1, RTPW_KIND_AUDIO_LEVEL) == RTPW_OK);
    memset(told, 0x5A, sizeof told);
    before = told[0];
    for (i = 0; i < COUNT; i++) {
        told[i].at = ROWS[i].at;
        told[i].len = ROWS[i].len;
    }
    rtpw_read_many(BYTES, SIZE, &map, told, COUNT);
    for (i = 0; i < COUNT; i++) {
        const rtpw_header *header = &told[i].packet.header;
        CHECK(told[i].at == ROWS[i].at && told[i].len == ROWS[i].len);
        CHECK(told[i].status == (ROWS[i].is_rtcp ? RTPW_RTCP : ROWS[i].status));
        if (told[i].status == RTPW_OK) {
            CHECK(header->sequence_number == ROWS[i].number && header->ssrc == 0x0A0B0C0D);
            CHECK(header->header_len == ROWS[i].payload_at && told[i].packet.unpadded_len == ROWS[i].payload_len);
            CHECK(header->values.has_audio_level == (i == 2) && header->has_extension == (i == 2 || i == 6));
        } else {
            CHECK(memcmp(&told[i].packet, &before.packet, sizeof before.packet) == 0);
        }
    }
    CHECK(told[2].packet.header.values.audio_level == -42 && told[2].packet.body_at == 16);
    CHECK(told[6].packet.block_form == RTPW_OTHER_FORM && told[6].packet.block_profile == 0xABAC);
}

static void none(void) {
    rtpw_map map;
    rtpw_datagram datagram;
    memset(&map, 0, sizeof map);
    memset(&datagram, 0, sizeof datagram);
    rtpw_packet_parse_many(BYTES, SIZE, NULL, 0);
    rtpw_packet_parse_many(NULL, 0, NULL, 0);
    rtpw_parse_many(NULL, 0, &map, NULL, 0);
    rtpw_read_many(NULL, 0, &map, NULL, 0);
    rtpw_receive_many(NULL, 0, NULL, 0);
    rtpw_packet_parse_many(NULL, 0, &datagram, 1);
    CHECK(datagram.status == RTPW_CUT_FIXED_PART && datagram.is_rtcp == 0);
}

/* A number that isn't written stays 7. */
static void arrivals(void) {
    static const struct {
        size_t receiver;
        uint16_t sequence_number;
        int32_t status;
        uint64_t number;
    } THESE[] = {
        {0, 65534, RTPW_OK, 65534}, {1, 500, RTPW_OK, 131572},  {0, 65535, RTPW_OK, 65535}, {2, 1, RTPW_BAD_FIELD, 7},
        {0, 65534, RTPW_REFUSED, 7}, {0, 0, RTPW_OK, 65536},    {1, 500, RTPW_REFUSED, 7},  {1, 372, RTPW_REFUSED, 7},
        {1, 373, RTPW_OK, 131445},  {(size_t)-1, 9, RTPW_BAD_FIELD, 7}, {0, 1, RTPW_OK, 65537}};
    enum { ALL = sizeof THESE / sizeof *THESE };
    rtpw_receiver receivers[3];
    rtpw_arrival told[ALL];
    size_t i;
    memset(receivers, 0, sizeof receivers);
    CHECK(rtpw_receiver_start(&receivers[1], 2) == RTPW_OK);
    for (i = 0; i < ALL; i++) {
        told[i].receiver = THESE[i].receiver;
        told[i].sequence_number = THESE[i].sequence_number;
        told[i].number = 7;
        told[i].status = -1;
    }
    rtpw_receive_many(receivers, 2, told, ALL); /* the third one isn't passed */
    for (i = 0; i < ALL; i++) {
        CHECK(told[i].receiver == THESE[i].receiver && told[i].sequence_number == THESE[i].sequence_number);
        CHECK(told[i].status == THESE[i].status && told[i].number == THESE[i].number);
    }
    CHECK(receivers[0].highest == 65537 && receivers[1].highest == 131572 && receivers[2].started == 0);
}

int main(void) {
    packets();
    headers();
    wholes();
    none();
    arrivals();
    return failed;
}
