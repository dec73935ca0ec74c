/* What a caller meets with other peers than str0m, and what its hand finds first: ids that differ in one character,
 * values of the standards beside those of a header, elements of the id 0, packets from before the first one, and the
 * URIs of an answer. The expected values are worked out by hand from RFC 3550, RFC 5450, RFC 8285, 4.2 and 4.3, RFC
 * 9626 and 3GPP TS 26.114, 7.4.5. */
#include "../rtp_wire.h"

#include <stdio.h>
#include <string.h>

static int failed = 0;

#define CHECK(holds) \
    do { \
        if (!(holds)) { \
            printf("line %d: %s\n", __LINE__, #holds); \
            failed = 1; \
        } \
    } while (0)

/* V=2, X; PT=96; 5; 100; 44 */
#define WITH 0x90, 0x60, 0, 5, 0, 0, 0, 100, 0, 0, 0, 44

/* Puts an element into a packet without a block; the packet's length. */
static size_t with_element(uint8_t *buf, size_t size, uint8_t id, const void *data, size_t data_len) {
    static const uint8_t FIXED_PART[12] = {0x80, 0x60, 0, 5, 0, 0, 0, 100, 0, 0, 0, 44};
    size_t len = sizeof FIXED_PART;
    memcpy(buf, FIXED_PART, len);
    CHECK(rtpw_put_element(buf, size, &len, id, (const uint8_t *)data, data_len, RTPW_ANY_FORM) == RTPW_OK);
    return len;
}

/* Three mids of which the values have one text, and one of 17 characters: the data are the peer's own. */
static void ids_are_told_apart(void) {
    static const struct {
        const char *lies, *read;
        bool is_token, is_kept;
    } ROWS[] = {
        {"cam_1", "cam_1", true, true},
        {"cam-1", "cam_1", true, false},
        {"cam.1", "cam_1", true, false},
        {"abcdefghijklmnop", "abcdefghijklmnop", true, true},
        {"abcdefghijklmnopq", "abcdefghijklmnop", true, false},
        {"cam 1", "cam_1", false, false},
    };
    static const rtpw_map MAP = {{0, RTPW_KIND_MID}};
    size_t row;
    for (row = 0; row < sizeof ROWS / sizeof *ROWS; row++) {
        uint8_t buf[64];
        size_t len = with_element(buf, sizeof buf, 1, ROWS[row].lies, strlen(ROWS[row].lies));
        rtpw_packet packet;
        rtpw_header header;
        rtpw_element element;
        const uint8_t *data;
        CHECK(rtpw_packet_parse(buf, len, &packet) == RTPW_OK && rtpw_parse(buf, len, &MAP, &header) == RTPW_OK);
        CHECK(rtpw_last_element(buf + packet.body_at, packet.body_len, packet.block_form, 1, &element) == RTPW_OK);
        data = buf + packet.body_at + element.data_at;
        CHECK(header.values.has_mid == 1 && strcmp(header.values.mid, ROWS[row].read) == 0);
        CHECK(element.data_len == strlen(ROWS[row].lies) && memcmp(data, ROWS[row].lies, element.data_len) == 0);
        CHECK(rtpw_is_token(data, element.data_len) == ROWS[row].is_token);
        CHECK((strlen(header.values.mid) == element.data_len &&
               memcmp(header.values.mid, data, element.data_len) == 0) == ROWS[row].is_kept);
    }
}

/* An offset of three bytes and a marking of three are no values of a header, and are read by calls of their own. */
static void elements_of_the_standards(void) {
    static const rtpw_map MAP = {{0, RTPW_KIND_TRANSMISSION_OFFSET, RTPW_KIND_FRAME_MARKING}};
    /* -90; start and independent, with layers: base layer sync, temporal layer 1, layer 2, number 7 */
    static const uint8_t PACKET[24] = {WITH, 0xBE, 0xDE, 0, 2, 0x12, 0xFF, 0xFF, 0xA6, 0x22, 0xA9, 2, 7};
    static const uint8_t OF_STR0M[4] = {0, 0, 0, 90};
    rtpw_header header;
    rtpw_frame_marking marking;
    uint8_t data[3];
    size_t len;
    int32_t offset = 0;
    CHECK(rtpw_parse(PACKET, 24, &MAP, &header) == RTPW_OK);
    CHECK(header.values.has_transmission_offset == 0 && header.values.has_frame_marking == 0);
    CHECK(rtpw_read_transmission_offset(PACKET + 17, 3, &offset) == RTPW_OK && offset == -90);
    CHECK(rtpw_read_transmission_offset(OF_STR0M, 4, &offset) == RTPW_BAD_FIELD && offset == -90);
    CHECK(rtpw_write_transmission_offset(-90, data, 3, &len) == RTPW_OK && len == 3 &&
          memcmp(data, PACKET + 17, 3) == 0);
    CHECK(rtpw_read_frame_marking(PACKET + 21, 3, &marking) == RTPW_OK);
    CHECK(marking.start == 1 && marking.end == 0 && marking.independent == 1 && marking.discardable == 0);
    CHECK(marking.has_layers == 1 && marking.base_layer_sync == 1 && marking.temporal_id == 1 && marking.layer_id == 2);
    CHECK(marking.has_tl0_pic_idx == 1 && marking.tl0_pic_idx == 7);
    CHECK(rtpw_write_frame_marking(&marking, data, 3, &len) == RTPW_OK && len == 3 &&
          memcmp(data, PACKET + 21, 3) == 0);
    CHECK(rtpw_read_frame_marking(OF_STR0M, 4, &marking) == RTPW_BAD_FIELD);
}

/* A header that is read and written keeps the turn, and loses the camera and the flip; the element by itself keeps all.
 */
static void an_orientation_is_written_again(void) {
    static const rtpw_map MAP = {{0, RTPW_KIND_VIDEO_ORIENTATION}};
    static const uint8_t PACKET[20] = {WITH, 0xBE, 0xDE, 0, 1, 0x10, 0x0D, 0, 0};
    uint8_t buf[32], data[1];
    rtpw_header header;
    rtpw_orientation orientation;
    size_t len;
    CHECK(rtpw_parse(PACKET, 20, &MAP, &header) == RTPW_OK && header.values.video_orientation == 270);
    CHECK(rtpw_write(&MAP, &header, buf, sizeof buf, &len) == RTPW_OK && len == 20);
    CHECK(memcmp(buf, PACKET, 17) == 0 && buf[17] == 0x01);
    CHECK(rtpw_read_orientation(PACKET + 17, 1, &orientation) == RTPW_OK);
    CHECK(orientation.turn == 270 && orientation.camera == RTPW_CAMERA_BACK && orientation.flip == 1);
    CHECK(rtpw_write_orientation(&orientation, data, 1, &len) == RTPW_OK && len == 1);
    len = 20;
    CHECK(rtpw_put_element(buf, sizeof buf, &len, 1, data, 1, RTPW_ANY_FORM) == RTPW_OK && len == 20);
    CHECK(memcmp(buf, PACKET, 20) == 0);
}

/* Of 5, 65,533, 6 and 7 a receiver of zeros takes the second as one near 2^64, and no later one. */
static void packets_from_before_the_first(void) {
    static const uint16_t LOW[4] = {5, 65533, 6, 7};
    static const rtpw_receiver ZEROS = {0};
    static const rtpw_wide_receiver WIDE_ZEROS = {0};
    rtpw_receiver receiver = ZEROS;
    rtpw_wide_receiver wide = WIDE_ZEROS;
    uint64_t words[2], number = 0;
    CHECK(rtpw_receiver_receive(&receiver, LOW[0], &number) == RTPW_OK && number == 5);
    CHECK(rtpw_receiver_receive(&receiver, LOW[1], &number) == RTPW_OK && number == UINT64_MAX - 2);
    CHECK(rtpw_receiver_receive(&receiver, LOW[2], &number) == RTPW_REFUSED);
    CHECK(rtpw_receiver_receive(&receiver, LOW[3], &number) == RTPW_REFUSED);
    CHECK(rtpw_wide_receiver_receive(&wide, words, 2, LOW[0], &number) == RTPW_OK && number == 5);
    CHECK(rtpw_wide_receiver_receive(&wide, words, 2, LOW[1], &number) == RTPW_OK && number == UINT64_MAX - 2);
    CHECK(rtpw_wide_receiver_receive(&wide, words, 2, LOW[2], &number) == RTPW_REFUSED);

    static const uint64_t FROM_1[4] = {65541, 65533, 65542, 65543};
    size_t i;
    CHECK(rtpw_receiver_start(&receiver, 1) == RTPW_OK && rtpw_wide_receiver_start(&wide, 1) == RTPW_OK);
    for (i = 0; i < 4; i++) {
        CHECK(rtpw_receiver_receive(&receiver, LOW[i], &number) == RTPW_OK && number == FROM_1[i]);
        CHECK(rtpw_wide_receiver_receive(&wide, words, 2, LOW[i], &number) == RTPW_OK && number == FROM_1[i]);
    }
}

typedef struct {
    uint8_t id, byte;
    uint8_t body[8];
    uint8_t becomes[8];
} put;

/* Behind an element of the id 0 with length bits a receiver that follows the RFC reads nothing: it goes. */
static void elements_of_the_id_0_go(void) {
    static const put ROWS[] = {
        /* alone; in front of one of the id, which has as many bytes; behind it; with one of another id between */
        {1, 0xCC, {0x01, 0xAA, 0xBB, 0, 0, 0, 0, 0}, {0x10, 0xCC, 0, 0, 0, 0, 0, 0}},
        {1, 0xCC, {0x01, 0xAA, 0xBB, 0, 0x10, 0x77, 0, 0}, {0x10, 0xCC, 0, 0, 0, 0, 0, 0}},
        {1, 0xCC, {0x10, 0x77, 0x01, 0xAA, 0xBB, 0, 0, 0}, {0x10, 0xCC, 0, 0, 0, 0, 0, 0}},
        {2, 0xCC, {0x01, 0xAA, 0xBB, 0x10, 0x77, 0, 0, 0}, {0x10, 0x77, 0x20, 0xCC, 0, 0, 0, 0}},
    };
    size_t row;
    for (row = 0; row < sizeof ROWS / sizeof *ROWS; row++) {
        uint8_t buf[25] = {WITH, 0xBE, 0xDE, 0, 2};
        size_t len = 25;
        memcpy(buf + 16, ROWS[row].body, 8);
        buf[24] = 9;
        CHECK(rtpw_put_element(buf, 25, &len, ROWS[row].id, &ROWS[row].byte, 1, RTPW_ONE_BYTE_FORM) == RTPW_OK);
        CHECK(len == 25 && buf[13] == 0xDE && buf[15] == 2 && memcmp(buf + 16, ROWS[row].becomes, 8) == 0 &&
              buf[24] == 9);
    }
    /* compact takes it away, and what is read there stays */
    uint8_t buf[25] = {WITH, 0xBE, 0xDE, 0, 2, 0x01, 0xAA, 0xBB, 0, 0x10, 0x77, 0, 0, 9};
    size_t len = 25;
    CHECK(rtpw_compact(buf, 25, &len) == RTPW_OK && len == 21);
    CHECK(buf[15] == 1 && buf[16] == 0x10 && buf[17] == 0x77 && buf[18] == 0 && buf[19] == 0 && buf[20] == 9);
}

/* And none is written. */
static void no_element_of_the_id_0_is_written(void) {
    static const rtpw_map NONE_BUT_0 = {{RTPW_KIND_MID}};
    static const uint8_t DATA[2] = {0xAA, 0xBB};
    static const rtpw_element ELEMENTS[2] = {{0, 1, 1, 1}, {1, 1, 2, 0}};
    rtpw_header header = {0};
    uint8_t buf[32];
    size_t len = 7;
    uint32_t kinds = 0;
    CHECK(rtpw_write_with(&header, DATA, 2, ELEMENTS, 2, buf, sizeof buf, &len) == RTPW_BAD_FIELD && len == 7);
    CHECK(rtpw_write_with_form(&header, DATA, 2, ELEMENTS, 2, RTPW_TWO_BYTE_FORM, buf, sizeof buf, &len) ==
          RTPW_BAD_FIELD);
    CHECK(rtpw_write_elements(DATA, 2, ELEMENTS + 1, 1, RTPW_TWO_BYTE_FORM, buf, sizeof buf, &len) == RTPW_BAD_FIELD);
    CHECK(rtpw_write_with(&header, DATA, 2, ELEMENTS, 1, buf, sizeof buf, &len) == RTPW_OK && len == 20);
    header.has_extension = header.values.has_mid = 1;
    header.values.mid[0] = 'a';
    CHECK(rtpw_write(&NONE_BUT_0, &header, buf, sizeof buf, &len) == RTPW_OK && len == 16);
    CHECK(rtpw_left_out(&NONE_BUT_0, &header, &kinds) == RTPW_OK && kinds == UINT32_C(1) << RTPW_KIND_MID);
}

/* A one-byte block takes ids above 14 once its form is changed. */
static void ids_above_14_after_a_change_of_form(void) {
    static const uint8_t WANTED[25] = {WITH, 0x10, 0, 0, 2, 200, 1, 0xAA, 15, 1, 0xBB, 0, 0, 9};
    uint8_t buf[25] = {WITH, 0xBE, 0xDE, 0, 1, 0x10, 0xAA, 0x20, 0xBB, 9};
    rtpw_new_ids ids = {{0, 200, 15}};
    size_t len = 21;
    CHECK(rtpw_renumber(buf, len, &ids) == RTPW_LONG_ID);
    CHECK(rtpw_change_form(buf, 25, &len, RTPW_TWO_BYTE_FORM) == RTPW_OK && len == 25);
    CHECK(rtpw_renumber(buf, len, &ids) == RTPW_OK && memcmp(buf, WANTED, 25) == 0);
}

/* A form that isn't allowed, an element that doesn't fit into the one that is, and a wrong id. */
static void why_an_element_is_not_put(void) {
    uint8_t one[24] = {WITH, 0xBE, 0xDE, 0, 1, 0x10, 0xAA, 0, 0}, two[24] = {WITH, 0x10, 0, 0, 1, 1, 1, 0xAA, 0};
    static const uint8_t DATA[17] = {0};
    rtpw_packet packet;
    size_t len = 20;
    CHECK(rtpw_put_element(two, 24, &len, 1, DATA, 1, RTPW_ONE_BYTE_FORM) == RTPW_FORM_NOT_ALLOWED);
    CHECK(rtpw_packet_parse(two, len, &packet) == RTPW_OK && packet.block_form == RTPW_TWO_BYTE_FORM);
    CHECK(rtpw_put_element(two, 24, &len, 15, DATA, 1, RTPW_ONE_BYTE_FORM) == RTPW_LONG_ID);
    CHECK(rtpw_put_element(one, 24, &len, 15, DATA, 1, RTPW_ONE_BYTE_FORM) == RTPW_LONG_ID);
    CHECK(rtpw_put_element(one, 24, &len, 255, DATA, 17, RTPW_ONE_BYTE_FORM) == RTPW_LONG_ID);
    CHECK(rtpw_put_element(one, 24, &len, 14, DATA, 17, RTPW_ONE_BYTE_FORM) == RTPW_FORM_NOT_ALLOWED);
    CHECK(rtpw_put_element(one, 24, &len, 1, DATA, 0, RTPW_ONE_BYTE_FORM) == RTPW_FORM_NOT_ALLOWED);
    CHECK(rtpw_put_element(one, 24, &len, 1, DATA, 17, RTPW_ONE_BYTE_FORM) == RTPW_FORM_NOT_ALLOWED);
    CHECK(rtpw_packet_parse(one, len, &packet) == RTPW_OK && packet.block_form == RTPW_ONE_BYTE_FORM);
    CHECK(rtpw_put_element(one, 24, &len, 0, DATA, 1, RTPW_ONE_BYTE_FORM) == RTPW_BAD_ID);
    CHECK(rtpw_put_element(one, 24, &len, 15, DATA, 1, RTPW_ANY_FORM) == RTPW_OK && len == 24);
}

/* Each kind has a URI, which names it again; the five without a field as their documents have them: RFC 6465, 5,
 * WebRTC's transport-wide-cc-02, AV1's RTP payload format, A.6, and RFC 6051, 3.3. */
static void kinds_have_uris(void) {
    static const char *const without_a_field[] = {
        "urn:ietf:params:rtp-hdrext:csrc-audio-level",
        "http://www.webrtc.org/experiments/rtp-hdrext/transport-wide-cc-02",
        "https://aomediacodec.github.io/av1-rtp-spec/#dependency-descriptor-rtp-header-extension",
        "urn:ietf:params:rtp-hdrext:ntp-64",
        "urn:ietf:params:rtp-hdrext:ntp-56",
    };
    uint8_t uri[RTPW_URI_SIZE];
    size_t len = 0, longest = 0;
    unsigned kind;
    for (kind = RTPW_KIND_ABS_SEND_TIME; kind <= RTPW_KIND_NTP_56; kind++) {
        CHECK(rtpw_uri_of_kind((uint8_t)kind, uri, sizeof uri, &len) == RTPW_OK && rtpw_kind_of_uri(uri, len) == kind);
        longest = len > longest ? len : longest;
        CHECK(rtpw_uri_of_kind((uint8_t)kind, uri, len - 1, &len) == RTPW_SHORT_BUFFER);
    }
    CHECK(longest == RTPW_URI_SIZE && longest == 87);
    for (kind = RTPW_KIND_MIXER_LEVELS; kind <= RTPW_KIND_NTP_56; kind++) {
        const char *text = without_a_field[kind - RTPW_KIND_MIXER_LEVELS];
        CHECK(rtpw_uri_of_kind((uint8_t)kind, uri, sizeof uri, &len) == RTPW_OK && len == strlen(text));
        CHECK(memcmp(uri, text, len) == 0 && rtpw_kind_of_uri((const uint8_t *)text, len - 1) == RTPW_KIND_NONE);
    }
    CHECK(rtpw_uri_of_kind(RTPW_KIND_MID, uri, sizeof uri, &len) == RTPW_OK && len == 35);
    CHECK(memcmp(uri, "urn:ietf:params:rtp-hdrext:sdes:mid", 35) == 0);
    for (kind = RTPW_KIND_NTP_56 + 1; kind < 256; kind++) {
        CHECK(rtpw_uri_of_kind((uint8_t)kind, uri, sizeof uri, &len) == RTPW_NONE && len == 35);
    }
    CHECK(rtpw_uri_of_kind(RTPW_KIND_NONE, uri, sizeof uri, &len) == RTPW_NONE);
}

/* A URI with one bit changed, or of another length, names no kind, whatever stands behind it; but for a bit of the
 * "s" of ssrc-audio-level (RFC 6464), which makes it csrc-audio-level (RFC 6465), and that back. */
static void what_is_nearly_a_uri(void) {
    const unsigned none = RTPW_KIND_NONE, voice = RTPW_KIND_AUDIO_LEVEL, mixer = RTPW_KIND_MIXER_LEVELS;
    uint8_t uri[2 * RTPW_URI_SIZE];
    unsigned kind;
    for (kind = RTPW_KIND_ABS_SEND_TIME; kind <= RTPW_KIND_NTP_56; kind++) {
        size_t len = 0, i;
        CHECK(rtpw_uri_of_kind((uint8_t)kind, uri, sizeof uri, &len) == RTPW_OK);
        memset(uri + len, '0', sizeof uri - len);
        for (i = 0; i <= sizeof uri; i++) {
            CHECK(rtpw_kind_of_uri(uri, i) == (i == len ? kind : none));
        }
        for (i = 0; i < 8 * len; i++) {
            unsigned is_other = i == 8 * sizeof "urn:ietf:params:rtp-hdrext:" - 8 + 4;
            unsigned other = kind == voice ? mixer : kind == mixer ? voice : none;
            uri[i / 8] ^= (uint8_t)(1u << i % 8);
            CHECK(rtpw_kind_of_uri(uri, len) == (is_other ? other : none));
            uri[i / 8] ^= (uint8_t)(1u << i % 8);
        }
    }
}

/* Four were expected, from the first one's number to the highest, and one of them is lost. */
static void packets_are_expected(void) {
    rtpw_reception reception = {0};
    rtpw_report report;
    rtpw_reception_record(&reception, 65541, 0, 0);
    rtpw_reception_record(&reception, 65544, 0, 0);
    rtpw_reception_record(&reception, 65540, 0, 0);
    CHECK(reception.highest - reception.first + 1 == 4);
    CHECK(rtpw_reception_report(&reception, &report) == RTPW_OK && report.cumulative_lost == 4 - 3);
    CHECK(reception.expected_before == 4 && report.fraction_lost == 64 && report.extended_highest == 8);
}

int main(void) {
    ids_are_told_apart();
    elements_of_the_standards();
    an_orientation_is_written_again();
    packets_from_before_the_first();
    elements_of_the_id_0_go();
    no_element_of_the_id_0_is_written();
    ids_above_14_after_a_change_of_form();
    why_an_element_is_not_put();
    kinds_have_uris();
    what_is_nearly_a_uri();
    packets_are_expected();
    return failed;
}
