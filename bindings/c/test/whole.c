/* A whole packet by one call: its header and values, where its parts lie, padding, blocks of each form, and RTCP on the
 * same port. The expected values are worked out by hand from RFC 3550, 5.1 and 5.3.1, RFC 8285, 4.2 and 4.3, RFC 6464
 * and RFC 5761, 4. */
#include "../rtp_wire.h"

#include <stdio.h>
#include <string.h>

static int failed = 0;

#define CHECK(holds) \
    do { \
        if (!(holds)) { \
            printf("line %d: %s\n", __LINE__, #holds); \
            failed = 1; \
        } \
    } while (0)

/* Timestamp 0x01020304, SSRC 0x0A0B0C0D. */
#define REST 1, 2, 3, 4, 10, 11, 12, 13

/* V=2, P, X, CC=2; M, PT=33; 47,000; the sources 1 and 2; a block of two words with a level of -42 with voice and the
 * mid "ab"; a payload of 3 bytes and 2 of padding. */
static const uint8_t SAMPLE[37] = {0xB2, 0xA1, 0xB7, 0x98, REST, 0, 0,    0,    1,    0,    0,   0,   2, 0xBE, 0xDE,
                                   0,    2,    0x10, 0xAA, 0x41, 'a', 'b', 0,    0,    0,    7,   8,   9, 0,    2};
enum { LEN = 37, BODY_AT = 24, PAYLOAD_AT = 32 };

static rtpw_map map;

/* What stays is what was there before. */
static rtpw_whole_packet before, packet;

static int32_t status_of(const uint8_t *datagram, size_t len) {
    memset(&before, 0x5A, sizeof before);
    memcpy(&packet, &before, sizeof packet);
    return rtpw_read(datagram, len, &map, &packet);
}

static int is_unchanged(void) {
    return memcmp(&packet, &before, sizeof packet) == 0;
}

static void all_is_told(void) {
    const rtpw_header *header = &packet.header;
    size_t i;
    CHECK(status_of(SAMPLE, LEN) == RTPW_OK);
    CHECK(header->has_padding == 1 && header->has_extension == 1 && header->marker == 1 && header->payload_type == 33);
    CHECK(header->sequence_number == 47000 && header->timestamp == 0x01020304 && header->ssrc == 0x0A0B0C0D);
    CHECK(header->csrc_count == 2 && header->csrc[0] == 1 && header->csrc[1] == 2);
    for (i = 2; i < 15; i++) {
        CHECK(header->csrc[i] == 0);
    }
    CHECK(header->values.has_audio_level == 1 && header->values.audio_level == -42);
    CHECK(header->values.has_voice_activity == 1 && header->values.voice_activity == 1);
    CHECK(header->values.has_mid == 1 && strcmp(header->values.mid, "ab") == 0 && header->values.has_rid == 0);
    CHECK(header->header_len == PAYLOAD_AT && packet.unpadded_len == 3 && packet.padding_fits == 1);
    CHECK(packet.block_form == RTPW_ONE_BYTE_FORM && packet.block_profile == 0xBEDE);
    CHECK(packet.body_at == BODY_AT && packet.body_len == 8);
}

/* As it is told by the calls for its parts: what they have in common is the same. */
static void the_parts_agree(void) {
    rtpw_packet parts;
    rtpw_header header;
    CHECK(status_of(SAMPLE, LEN) == RTPW_OK);
    CHECK(rtpw_packet_parse(SAMPLE, LEN, &parts) == RTPW_OK && rtpw_parse(SAMPLE, LEN, &map, &header) == RTPW_OK);
    CHECK(packet.header.header_len == parts.payload_at && packet.unpadded_len == parts.unpadded_len);
    CHECK(packet.body_at == parts.body_at && packet.body_len == parts.body_len);
    CHECK(packet.block_form == parts.block_form && packet.block_profile == parts.block_profile);
    CHECK(packet.header.ssrc == header.ssrc && packet.header.values.audio_level == header.values.audio_level);
    CHECK(LEN - packet.header.header_len == parts.payload_len);
}

/* Of a packet of 4 bytes behind the header by its last byte: how many of them are payload, and whether it fits. */
static void padding_is_no_media(void) {
    static const struct {
        uint8_t first, last;
        size_t len, unpadded_len;
        uint8_t fits;
    } ROWS[] = {{0xA0, 1, 16, 3, 1}, {0xA0, 4, 16, 0, 1},   {0xA0, 5, 16, 0, 0}, {0xA0, 255, 16, 0, 0},
                {0xA0, 0, 16, 4, 1}, {0xA0, 255, 12, 0, 1}, {0x80, 1, 16, 4, 1}, {0x80, 255, 16, 4, 1}};
    uint8_t bytes[16] = {0, 96, 0, 1, REST, 7, 7, 7, 0};
    size_t i;
    for (i = 0; i < sizeof ROWS / sizeof *ROWS; i++) {
        bytes[0] = ROWS[i].first;
        bytes[15] = ROWS[i].last;
        CHECK(status_of(bytes, ROWS[i].len) == RTPW_OK && packet.header.has_padding == (ROWS[i].first == 0xA0));
        CHECK(packet.unpadded_len == ROWS[i].unpadded_len && packet.padding_fits == ROWS[i].fits);
        CHECK(packet.header.header_len == 12 && packet.header.has_extension == 0);
        CHECK(packet.block_form == RTPW_NO_BLOCK && packet.block_profile == 0);
        CHECK(packet.body_at == 12 && packet.body_len == 0);
    }
}

/* A block of a word: of each form, of ONVIF and Cryptex, and of the profiles beside those of the two-byte form. Its
 * bytes are a level of -42 with voice, as the two-byte form has it; the one-byte form reads none in them. */
static void each_block_is_told(void) {
    static const struct {
        uint8_t high, low, form;
        int has_level;
    } ROWS[] = {{0x10, 0x00, RTPW_TWO_BYTE_FORM, 1}, {0x10, 0x0F, RTPW_TWO_BYTE_FORM, 1},
                {0xBE, 0xDE, RTPW_ONE_BYTE_FORM, 0}, {0xAB, 0xAC, RTPW_OTHER_FORM, 0},
                {0xC0, 0xDE, RTPW_OTHER_FORM, 0},    {0xC2, 0xDE, RTPW_OTHER_FORM, 0},
                {0x10, 0x10, RTPW_OTHER_FORM, 0},    {0x0F, 0xFF, RTPW_OTHER_FORM, 0},
                {0x00, 0x00, RTPW_OTHER_FORM, 0}};
    uint8_t bytes[22] = {0x90, 96, 0, 1, REST, 0, 0, 0, 1, 1, 1, 0xAA, 0, 'o', 'k'};
    size_t i;
    for (i = 0; i < sizeof ROWS / sizeof *ROWS; i++) {
        bytes[12] = ROWS[i].high;
        bytes[13] = ROWS[i].low;
        CHECK(status_of(bytes, sizeof bytes) == RTPW_OK && packet.header.has_extension == 1);
        CHECK(packet.block_form == ROWS[i].form && packet.block_profile == ROWS[i].high * 256 + ROWS[i].low);
        CHECK(packet.body_at == 16 && packet.body_len == 4 && packet.header.header_len == 20);
        CHECK(packet.unpadded_len == 2 && packet.header.ssrc == 0x0A0B0C0D);
        CHECK(packet.header.values.has_audio_level == ROWS[i].has_level);
        CHECK(packet.header.values.audio_level == (ROWS[i].has_level ? -42 : 0));
        CHECK(packet.header.values.has_mid == 0 && packet.header.values.mid[0] == 0);
    }
}

static void rtcp_is_told(void) {
    /* a receiver report without a block, one on a source, whose bytes are also a packet of RTP with a source, and a
     * sender report on none that is cut short */
    static const uint8_t REPORT[] = {0x80, 201, 0, 1, 0, 0, 0, 44};
    static const uint8_t ON_SOURCE[32] = {0x81, 201, 0, 7, 0, 0, 0, 44, 0, 0, 0, 45};
    static const struct {
        uint8_t first, second;
        int32_t status;
    } ROWS[] = {{0x80, 191, RTPW_OK},   {0x80, 192, RTPW_RTCP}, {0x80, 200, RTPW_RTCP}, {0xBF, 223, RTPW_RTCP},
                {0x80, 224, RTPW_OK},   {0x80, 72, RTPW_OK},    {0x80, 96, RTPW_OK},    {0x80, 0xE0, RTPW_OK},
                {0x40, 200, RTPW_OTHER_VERSION}, {0xC0, 200, RTPW_OTHER_VERSION}};
    uint8_t bytes[12] = {0, 0, 0, 1, REST};
    size_t i;
    CHECK(status_of(REPORT, sizeof REPORT) == RTPW_RTCP && is_unchanged());
    CHECK(status_of(REPORT, 4) == RTPW_RTCP && is_unchanged());
    CHECK(status_of(REPORT, 2) == RTPW_RTCP && is_unchanged());
    CHECK(status_of(REPORT, 1) == RTPW_CUT_FIXED_PART && is_unchanged());
    CHECK(status_of(ON_SOURCE, sizeof ON_SOURCE) == RTPW_RTCP && is_unchanged());
    for (i = 0; i < sizeof ROWS / sizeof *ROWS; i++) {
        bytes[0] = ROWS[i].first;
        bytes[1] = ROWS[i].second;
        CHECK(status_of(bytes, sizeof bytes) == ROWS[i].status);
        CHECK((ROWS[i].status == RTPW_OK) != is_unchanged());
    }
}

static void each_cause_is_told(void) {
    uint8_t bytes[LEN];
    CHECK(status_of(NULL, 0) == RTPW_CUT_FIXED_PART && is_unchanged());
    CHECK(status_of(SAMPLE, 11) == RTPW_CUT_FIXED_PART && is_unchanged());
    CHECK(status_of(SAMPLE, 19) == RTPW_CUT_SOURCES && is_unchanged());
    CHECK(status_of(SAMPLE, 23) == RTPW_CUT_BLOCK_HEADER && is_unchanged());
    CHECK(status_of(SAMPLE, 31) == RTPW_CUT_BLOCK && is_unchanged());
    CHECK(status_of(SAMPLE, 32) == RTPW_OK && packet.unpadded_len == 0 && packet.padding_fits == 1);
    memcpy(bytes, SAMPLE, LEN);
    bytes[0] = 0x72;
    CHECK(status_of(bytes, LEN) == RTPW_OTHER_VERSION && is_unchanged());
    bytes[0] = 0xB2;
    bytes[20] = 0xAB; /* of another form, and cut short */
    CHECK(status_of(bytes, 31) == RTPW_CUT_BLOCK && is_unchanged());
    CHECK(status_of(bytes, 32) == RTPW_OK && packet.block_form == RTPW_OTHER_FORM);
}

/* Nothing stays of the packet before. */
static void nothing_stays(void) {
    static const uint8_t BARE[12] = {0x80, 96, 0, 1, REST};
    CHECK(status_of(SAMPLE, LEN) == RTPW_OK);
    CHECK(rtpw_read(BARE, sizeof BARE, &map, &packet) == RTPW_OK);
    CHECK(packet.header.csrc_count == 0 && packet.header.csrc[0] == 0 && packet.header.csrc[1] == 0);
    CHECK(packet.header.marker == 0 && packet.header.has_padding == 0 && packet.header.has_extension == 0);
    CHECK(packet.header.values.has_mid == 0 && packet.header.values.mid[0] == 0);
    CHECK(packet.header.values.has_audio_level == 0 && packet.header.values.audio_level == 0);
    CHECK(packet.unpadded_len == 0 && packet.body_len == 0 && packet.block_profile == 0);
    /* a refused one leaves all */
    CHECK(rtpw_read(BARE, 11, &map, &packet) == RTPW_CUT_FIXED_PART && packet.header.payload_type == 96);
}

int main(void) {
    memset(&map, 0, sizeof map);
    CHECK(rtpw_map_set(&map, 1, RTPW_KIND_AUDIO_LEVEL) == RTPW_OK && rtpw_map_set(&map, 4, RTPW_KIND_MID) == RTPW_OK);
    all_is_told();
    the_parts_agree();
    padding_is_no_media();
    each_block_is_told();
    rtcp_is_told();
    each_cause_is_told();
    nothing_stays();
    return failed;
}
