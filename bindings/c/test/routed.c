/* One packet to all its receivers. The expected bytes are worked out by hand from RFC 3550, 5.1, and RFC 8285, 4.1.2,
 * 4.2, 4.3 and 5. */
#include "../rtp_wire.h"

#include <stdio.h>
#include <string.h>

static int failed = 0;

#define CHECK(holds) \
    do { \
        if (!(holds)) { \
            printf("routed.c:%d: %s\n", __LINE__, #holds); \
            failed = 1; \
        } \
    } while (0)

/* Timestamp 100, SSRC 44. */
#define REST 0, 0, 0, 100, 0, 0, 0, 44
#define REST_45 0, 0, 0, 100, 0, 0, 0, 45

/* The element 1 of one byte, padding, and a payload of a byte. */
static const uint8_t SAMPLE[] = {0x90, 96, 0, 5, REST, 0xBE, 0xDE, 0, 1, 0x10, 0xAA, 0, 0, 'p'};
static const uint8_t NUMBERS[] = {0, 7, 0, 8};

static uint8_t header[700];
static rtpw_template made;

static rtpw_new_ids ids_of(uint8_t old, uint8_t id) {
    rtpw_new_ids ids;
    memset(&ids, 0, sizeof ids);
    ids.id[old] = id;
    return ids;
}

static rtpw_element element_of(size_t data_at, size_t data_len, uint8_t id) {
    rtpw_element element;
    element.data_at = data_at;
    element.data_len = data_len;
    element.end = 77; /* it isn't looked at */
    element.id = id;
    return element;
}

/* What is made for the group is these bytes. */
static void is_made(const uint8_t *packet, size_t len, const rtpw_new_ids *ids, const uint8_t *data, size_t data_len,
                    const rtpw_element *elements, size_t count, uint8_t allowed, const uint8_t *wanted,
                    size_t wanted_len) {
    memset(&made, 0x5A, sizeof made);
    CHECK(rtpw_make_template(packet, len, ids, data, data_len, elements, count, allowed, header, sizeof header, &made) ==
          RTPW_OK);
    CHECK(made.header_len == wanted_len && made.count == count);
    CHECK(memcmp(header, wanted, wanted_len) == 0);
}

static int32_t status_of(const uint8_t *packet, size_t len, const rtpw_new_ids *ids, const rtpw_element *elements,
                         size_t count, uint8_t allowed, size_t size) {
    static const uint8_t data[300] = {0};
    rtpw_template before;
    int32_t status;
    memset(&made, 0x5A, sizeof made);
    before = made;
    status = rtpw_make_template(packet, len, ids, data, sizeof data, elements, count, allowed, header, size, &made);
    CHECK(status == RTPW_OK || memcmp(&made, &before, sizeof made) == 0);
    return status;
}

static void two_receivers(void) {
    static const uint8_t first[] = {0x90, 96, 0, 9, REST_45, 0xBE, 0xDE, 0, 2, 0x30, 0xAA, 0x41, 0, 7, 0, 0, 0};
    static const uint8_t second[] = {0x90, 0xE1, 0, 5, 1, 2, 3, 4, 0, 0, 0, 44, 0xBE, 0xDE, 0, 2, 0x30, 0xAA, 0x41, 0, 8, 0, 0, 0};
    static const uint8_t common[] = {0x90, 96, 0, 5, REST, 0xBE, 0xDE, 0, 2, 0x30, 0xAA, 0x41, 0, 7, 0, 0, 0};
    const rtpw_new_ids ids = ids_of(1, 3);
    const rtpw_element element = element_of(0, 2, 4);
    rtpw_routed_header receivers[2];
    uint8_t headers[50];
    size_t i;
    is_made(SAMPLE, sizeof SAMPLE, &ids, NUMBERS, sizeof NUMBERS, &element, 1, RTPW_ANY_FORM, common, sizeof common);
    CHECK(made.data_at[0] == 19 && made.data_len[0] == 2 && made.data_total == 2);
    for (i = 1; i < 16; i++) {
        CHECK(made.data_at[i] == 0 && made.data_len[i] == 0);
    }
    memset(receivers, 0, sizeof receivers);
    receivers[0].at = receivers[1].at = 25; /* they aren't looked at */
    receivers[0].fields.has_sequence_number = receivers[0].fields.has_ssrc = 1;
    receivers[0].fields.sequence_number = 9;
    receivers[0].fields.ssrc = 45;
    receivers[1].data_at = 2;
    receivers[1].fields.has_timestamp = receivers[1].fields.has_payload_type = receivers[1].fields.has_marker = 1;
    receivers[1].fields.timestamp = 0x01020304;
    receivers[1].fields.payload_type = 97;
    receivers[1].fields.marker = 2;
    receivers[0].status = receivers[1].status = 77;
    memset(headers, 0xEE, sizeof headers);
    CHECK(rtpw_write_headers(&made, header, sizeof header, NUMBERS, sizeof NUMBERS, receivers, 2, headers,
                             sizeof headers) == RTPW_OK);
    CHECK(receivers[0].status == RTPW_OK && receivers[1].status == RTPW_OK);
    CHECK(memcmp(headers, first, sizeof first) == 0 && memcmp(headers + 24, second, sizeof second) == 0);
    CHECK(headers[48] == 0xEE && headers[49] == 0xEE);
    CHECK(receivers[0].at == 0 && receivers[0].len == 24 && receivers[1].at == 24 && receivers[1].len == 24);
    CHECK(receivers[1].data_at == 2 && receivers[0].fields.ssrc == 45);
}

/* Three receivers, of which the first and the last get a retransmission of a packet with padding. */
static void retransmissions(void) {
    static const uint8_t packet[] = {0xB0, 0xE0, 0, 5, REST, 0xBE, 0xDE, 0, 1, 0x10, 0xAA, 0, 0, 'p', 'q', 0, 2};
    static const uint8_t common[] = {0xB0, 0xE0, 0, 5, REST, 0xBE, 0xDE, 0, 2, 0x30, 0xAA, 0x41, 0, 7, 0, 0, 0};
    static const uint8_t first[] = {0x90, 0xE1, 0, 9, REST_45, 0xBE, 0xDE, 0, 2, 0x30, 0xAA, 0x41, 0, 8, 0, 0, 0, 0, 5};
    static const uint8_t second[] = {0xB0, 0xE0, 0, 5, REST, 0xBE, 0xDE, 0, 2, 0x30, 0xAA, 0x41, 0, 8, 0, 0, 0};
    static const uint8_t third[] = {0x90, 0xE0, 0, 5, REST, 0xBE, 0xDE, 0, 2, 0x30, 0xAA, 0x41, 0, 7, 0, 0, 0, 0x12, 0x34};
    const rtpw_new_ids ids = ids_of(1, 3);
    const rtpw_element element = element_of(0, 2, 4);
    rtpw_new_ids same;
    rtpw_routed_header receivers[3];
    uint8_t headers[76], sent[30];
    size_t i, size, len = sizeof second + 4;
    is_made(packet, sizeof packet, &ids, NUMBERS, sizeof NUMBERS, &element, 1, RTPW_ANY_FORM, common, sizeof common);
    memset(receivers, 0, sizeof receivers);
    receivers[0].data_at = receivers[1].data_at = 2;
    receivers[0].fields.has_sequence_number = receivers[0].fields.has_ssrc = receivers[0].fields.has_payload_type = 1;
    receivers[0].fields.sequence_number = 9;
    receivers[0].fields.ssrc = 45;
    receivers[0].fields.payload_type = 97;
    receivers[0].is_retransmission = 1;
    receivers[0].original_number = 5;
    receivers[1].original_number = 77; /* it isn't looked at */
    receivers[2].is_retransmission = 255;
    receivers[2].original_number = 0x1234;
    memset(headers, 0xEE, sizeof headers);
    CHECK(rtpw_write_headers(&made, header, sizeof header, NUMBERS, sizeof NUMBERS, receivers, 3, headers,
                             sizeof headers) == RTPW_OK);
    CHECK(receivers[0].status == RTPW_OK && receivers[1].status == RTPW_OK && receivers[2].status == RTPW_OK);
    CHECK(memcmp(headers, first, sizeof first) == 0 && memcmp(headers + 26, second, sizeof second) == 0);
    CHECK(memcmp(headers + 50, third, sizeof third) == 0);
    CHECK(receivers[0].at == 0 && receivers[1].at == 26 && receivers[2].at == 50);
    CHECK(receivers[0].len == 26 && receivers[1].len == 24 && receivers[2].len == 26);
    CHECK(receivers[0].is_retransmission == 1 && receivers[2].original_number == 0x1234);
    /* the header has room, and the number behind it hasn't */
    for (size = 0; size < 26; size++) {
        receivers[0].status = 77;
        memset(headers, 0xEE, sizeof headers);
        CHECK(rtpw_write_headers(&made, header, sizeof header, NUMBERS, sizeof NUMBERS, receivers, 1, headers, size) ==
              RTPW_OK);
        CHECK(receivers[0].status == RTPW_SHORT_BUFFER && receivers[0].at == 0 && receivers[0].len == 0);
        for (i = 0; i < sizeof headers; i++) {
            CHECK(headers[i] == 0xEE);
        }
    }
    CHECK(rtpw_write_headers(&made, header, sizeof header, NUMBERS, sizeof NUMBERS, receivers, 1, headers, 26) == RTPW_OK);
    CHECK(receivers[0].status == RTPW_OK && memcmp(headers, first, sizeof first) == 0 && headers[26] == 0xEE);
    receivers[0].fields.payload_type = 128;
    receivers[2].data_at = 3;
    CHECK(rtpw_write_headers(&made, header, sizeof header, NUMBERS, sizeof NUMBERS, receivers, 3, headers,
                             sizeof headers) == RTPW_OK);
    CHECK(receivers[0].status == RTPW_BAD_FIELD && receivers[1].status == RTPW_OK && receivers[2].status == RTPW_BAD_FIELD);
    CHECK(receivers[0].len == 0 && receivers[1].at == 0 && receivers[1].len == 24);
    CHECK(receivers[2].at == 24 && receivers[2].len == 0);
    /* it is what the second receiver's packet becomes, whose payload has two bytes of padding */
    memset(&same, 0, sizeof same);
    for (i = 1; i < 256; i++) {
        same.id[i] = (uint8_t)i;
    }
    memcpy(sent, second, sizeof second);
    memcpy(sent + sizeof second, packet + 20, 4);
    CHECK(rtpw_to_retransmission(sent, sizeof sent, &len, 45, 97, 9, &same) == RTPW_OK && len == sizeof first + 2);
    CHECK(memcmp(sent, first, sizeof first) == 0 && memcmp(sent + sizeof first, "pq", 2) == 0);
}

static void groups(void) {
    /* the elements 1, 2 and 1 again */
    static const uint8_t three[] = {0x90, 96, 0, 5, REST, 0xBE, 0xDE, 0, 2, 0x10, 'a', 0x21, 'b', 'c', 0x10, 'd', 0};
    static const uint8_t placed[] = {0x90, 96, 0, 5, REST, 0xBE, 0xDE, 0, 2, 0x31, 'b', 'c', 0x51, 0, 7, 0, 0};
    static const uint8_t gone[] = {0x90, 96, 0, 5, REST, 0xBE, 0xDE, 0, 0};
    static const uint8_t two_byte[] = {0x90, 96, 0, 5,   REST, 0x10, 0, 0, 3,   1,  1,
                                       'a',  2,  2, 'b', 'c',  1,    1, 'd', 20, 0};
    static const uint8_t long_id[] = {0x90, 96, 0, 5, REST, 0x10, 0, 0, 1, 15, 2, 'b', 'c'};
    static const uint8_t with_long[] = {0x90, 96, 0, 5, REST, 0x10, 0, 0, 2, 15, 2, 'b', 'c', 4, 2, 0, 7};
    /* no block; one of another form */
    static const uint8_t bare[] = {0x80, 96, 0, 5, REST}, other[] = {0x90, 96, 0, 5, REST, 0xAB, 0xAC, 0, 1, 1, 2, 3, 4};
    static const uint8_t with_block[] = {0x90, 96, 0, 5, REST, 0xBE, 0xDE, 0, 1, 0x41, 0, 7, 0};
    static const uint8_t application[] = {0x90, 96, 0, 5, REST, 0x10, 0x07, 0, 1, 4, 1, 9, 0};
    static const uint8_t longer[] = {0x90, 96, 0, 5, REST, 0x10, 0x07, 0, 2, 6, 1, 9, 4, 2, 0, 7, 0};
    rtpw_new_ids ids = ids_of(2, 3), same;
    rtpw_element elements[3];
    int i;
    memset(&same, 0, sizeof same);
    for (i = 1; i < 256; i++) {
        same.id[i] = (uint8_t)i;
    }
    elements[0] = element_of(0, 2, 5);
    elements[1] = element_of(2, 1, 3);
    is_made(three, sizeof three, &ids, NUMBERS, sizeof NUMBERS, elements, 1, RTPW_ONE_BYTE_FORM, placed, sizeof placed);
    CHECK(made.data_at[0] == 20 && made.data_total == 2);
    ids = ids_of(9, 9);
    is_made(three, sizeof three, &ids, NULL, 0, NULL, 0, RTPW_ONE_BYTE_FORM, gone, sizeof gone);
    CHECK(made.data_total == 0);
    /* an id above 14 and no data make it the two-byte form, where that is allowed */
    elements[0] = element_of(4, 0, 20);
    is_made(three, sizeof three, &same, NUMBERS, sizeof NUMBERS, elements, 1, RTPW_ANY_FORM, two_byte, sizeof two_byte);
    CHECK(made.data_at[0] == 28 && made.data_len[0] == 0);
    CHECK(status_of(three, sizeof three, &same, elements, 1, RTPW_ONE_BYTE_FORM, sizeof header) == RTPW_LONG_ID);
    elements[0] = element_of(4, 0, 14);
    CHECK(status_of(three, sizeof three, &same, elements, 1, RTPW_ONE_BYTE_FORM, sizeof header) == RTPW_FORM_NOT_ALLOWED);
    elements[0] = element_of(0, 2, 4);
    is_made(bare, sizeof bare, &same, NUMBERS, sizeof NUMBERS, elements, 1, RTPW_ANY_FORM, with_block, sizeof with_block);
    is_made(bare, sizeof bare, &same, NULL, 0, NULL, 0, RTPW_ANY_FORM, bare, sizeof bare);
    is_made(other, sizeof other, &same, NULL, 0, NULL, 0, RTPW_ANY_FORM, other, sizeof other);
    CHECK(status_of(other, sizeof other, &same, elements, 1, RTPW_ANY_FORM, sizeof header) == RTPW_UNKNOWN_FORM);
    /* so does a new id above 14 of one of the packet's own, where that is allowed */
    ids = ids_of(2, 15);
    is_made(three, sizeof three, &ids, NULL, 0, NULL, 0, RTPW_ANY_FORM, long_id, sizeof long_id);
    is_made(three, sizeof three, &ids, NULL, 0, NULL, 0, RTPW_TWO_BYTE_FORM, long_id, sizeof long_id);
    elements[0] = element_of(0, 2, 4);
    is_made(three, sizeof three, &ids, NUMBERS, sizeof NUMBERS, elements, 1, RTPW_ANY_FORM, with_long, sizeof with_long);
    CHECK(made.data_at[0] == 22 && made.data_total == 2);
    /* the application's bits stay */
    ids = ids_of(4, 6);
    is_made(application, sizeof application, &ids, NUMBERS, sizeof NUMBERS, elements, 1, RTPW_ANY_FORM, longer, sizeof longer);
}

static void refusals(void) {
    static const uint8_t other_version[] = {0x50, 96, 0, 5, REST}, cut_source[] = {0x81, 96, 0, 5, REST};
    static const uint8_t cut_block[] = {0x90, 96, 0, 5, REST, 0xBE, 0xDE, 0, 1};
    static const uint8_t two_short[] = {0x90, 96, 0, 5, REST, 0xBE, 0xDE, 0, 1, 0x10, 0xAA, 0x20, 0xBB};
    rtpw_new_ids ids = ids_of(1, 3);
    rtpw_element elements[17];
    uint8_t i;
    for (i = 0; i < 17; i++) {
        elements[i] = element_of(i, 1, (uint8_t)(i + 20));
    }
    CHECK(status_of(SAMPLE, sizeof SAMPLE, &ids, elements, 16, RTPW_ANY_FORM, sizeof header) == RTPW_OK);
    CHECK(status_of(SAMPLE, sizeof SAMPLE, &ids, elements, 17, RTPW_ANY_FORM, sizeof header) == RTPW_BAD_FIELD);
    CHECK(status_of(SAMPLE, sizeof SAMPLE, &ids, elements, 1, 3, sizeof header) == RTPW_BAD_FIELD);
    CHECK(status_of(SAMPLE, 11, &ids, elements, 1, 3, sizeof header) == RTPW_BAD_FIELD);
    CHECK(status_of(SAMPLE, 11, &ids, elements, 1, RTPW_ANY_FORM, sizeof header) == RTPW_CUT_FIXED_PART);
    CHECK(status_of(other_version, 12, &ids, elements, 1, RTPW_ANY_FORM, sizeof header) == RTPW_OTHER_VERSION);
    CHECK(status_of(cut_source, 12, &ids, elements, 1, RTPW_ANY_FORM, sizeof header) == RTPW_CUT_SOURCES);
    CHECK(status_of(cut_block, 15, &ids, elements, 1, RTPW_ANY_FORM, sizeof header) == RTPW_CUT_BLOCK_HEADER);
    CHECK(status_of(cut_block, 16, &ids, elements, 1, RTPW_ANY_FORM, sizeof header) == RTPW_CUT_BLOCK);
    elements[1].data_at = 299;
    CHECK(status_of(SAMPLE, sizeof SAMPLE, &ids, elements, 2, RTPW_ANY_FORM, sizeof header) == RTPW_OK);
    elements[1].data_at = 300;
    CHECK(status_of(SAMPLE, sizeof SAMPLE, &ids, elements, 2, RTPW_ANY_FORM, sizeof header) == RTPW_BAD_FIELD);
    elements[1].data_at = (size_t)-1; /* data_at + data_len is 0 in 64 bits */
    CHECK(status_of(SAMPLE, 11, &ids, elements, 2, RTPW_ANY_FORM, sizeof header) == RTPW_BAD_FIELD);
    elements[1] = element_of(0, 256, 21);
    CHECK(status_of(SAMPLE, sizeof SAMPLE, &ids, elements, 2, RTPW_ANY_FORM, sizeof header) == RTPW_BAD_FIELD);
    elements[1] = element_of(0, 255, 21);
    CHECK(status_of(SAMPLE, sizeof SAMPLE, &ids, elements, 2, RTPW_ANY_FORM, sizeof header) == RTPW_OK);
    elements[1] = element_of(0, 1, 20);
    CHECK(status_of(SAMPLE, sizeof SAMPLE, &ids, elements, 2, RTPW_ANY_FORM, sizeof header) == RTPW_BAD_FIELD);
    elements[1] = element_of(0, 1, 0);
    CHECK(status_of(SAMPLE, sizeof SAMPLE, &ids, elements, 2, RTPW_ANY_FORM, sizeof header) == RTPW_BAD_ID);
    ids = ids_of(1, 15);
    CHECK(status_of(SAMPLE, sizeof SAMPLE, &ids, elements, 0, RTPW_ONE_BYTE_FORM, sizeof header) == RTPW_LONG_ID);
    CHECK(status_of(SAMPLE, sizeof SAMPLE, &ids, elements, 0, RTPW_ANY_FORM, sizeof header) == RTPW_OK);
    CHECK(status_of(SAMPLE, sizeof SAMPLE, &ids, elements, 0, RTPW_TWO_BYTE_FORM, sizeof header) == RTPW_OK);
    /* the two elements take eight bytes in the two-byte form, though one of them goes */
    CHECK(status_of(two_short, sizeof two_short, &ids, elements, 0, RTPW_ANY_FORM, 24) == RTPW_OK && made.header_len == 20);
    CHECK(status_of(two_short, sizeof two_short, &ids, elements, 0, RTPW_ANY_FORM, 23) == RTPW_SHORT_BUFFER);
    /* the header's twenty bytes have room, and one byte less hasn't; then what is put hasn't */
    ids = ids_of(1, 14);
    CHECK(status_of(SAMPLE, sizeof SAMPLE, &ids, elements, 0, RTPW_ANY_FORM, 20) == RTPW_OK);
    CHECK(status_of(SAMPLE, sizeof SAMPLE, &ids, elements, 0, RTPW_ANY_FORM, 19) == RTPW_SHORT_BUFFER);
    elements[0] = element_of(0, 3, 4);
    CHECK(status_of(SAMPLE, sizeof SAMPLE, &ids, elements, 1, RTPW_ANY_FORM, 24) == RTPW_OK);
    CHECK(status_of(SAMPLE, sizeof SAMPLE, &ids, elements, 1, RTPW_ANY_FORM, 23) == RTPW_SHORT_BUFFER);
    /* the first call that refuses tells its own: the first element has no room, and then the second has the id 0; the
     * header has no room, and then an element would get the id 15 */
    elements[1] = element_of(0, 1, 0);
    CHECK(status_of(SAMPLE, sizeof SAMPLE, &ids, elements, 2, RTPW_ANY_FORM, 23) == RTPW_SHORT_BUFFER);
    CHECK(status_of(SAMPLE, sizeof SAMPLE, &ids, elements, 2, RTPW_ANY_FORM, 24) == RTPW_BAD_ID);
    ids = ids_of(1, 15);
    CHECK(status_of(SAMPLE, sizeof SAMPLE, &ids, elements, 2, RTPW_ONE_BYTE_FORM, 19) == RTPW_SHORT_BUFFER);
    CHECK(status_of(SAMPLE, sizeof SAMPLE, &ids, elements, 2, RTPW_ONE_BYTE_FORM, 20) == RTPW_LONG_ID);
}

/* P is the packet's, and clear where that is asked for, and of a retransmission. */
static void without_padding(void) {
    static const uint8_t packet[] = {0xB0, 0xE0, 0, 5, REST, 0xBE, 0xDE, 0, 1, 0x10, 0xAA, 0, 0, 'p', 'q', 0, 2};
    const rtpw_new_ids ids = ids_of(1, 3);
    rtpw_routed_header receivers[4];
    uint8_t headers[82];
    memset(receivers, 0, sizeof receivers);
    receivers[1].clears_padding = 1;
    receivers[2].clears_padding = 255;
    receivers[3].is_retransmission = 1;
    CHECK(rtpw_make_template(packet, sizeof packet, &ids, NULL, 0, NULL, 0, RTPW_ANY_FORM, header, sizeof header, &made) ==
          RTPW_OK);
    CHECK(rtpw_write_headers(&made, header, sizeof header, NULL, 0, receivers, 4, headers, sizeof headers) == RTPW_OK);
    CHECK(headers[0] == 0xB0 && headers[20] == 0x90 && headers[40] == 0x90 && headers[60] == 0x90);
    CHECK(memcmp(headers + 1, headers + 21, 19) == 0 && memcmp(headers + 1, headers + 41, 19) == 0);
    CHECK(receivers[1].clears_padding == 1 && receivers[2].clears_padding == 255);
    /* where P is clear it stays so */
    CHECK(rtpw_make_template(SAMPLE, sizeof SAMPLE, &ids, NULL, 0, NULL, 0, RTPW_ANY_FORM, header, sizeof header, &made) ==
          RTPW_OK);
    CHECK(rtpw_write_headers(&made, header, sizeof header, NULL, 0, receivers, 2, headers, sizeof headers) == RTPW_OK);
    CHECK(headers[0] == 0x90 && headers[20] == 0x90);
}

/* A template of two bytes of data, and receivers of it with numbers from 1,000 on. */
enum { COUNT = 20, LEN = 24 };
static void many_receivers(rtpw_routed_header receivers[COUNT], uint8_t data[2 * COUNT]) {
    const rtpw_new_ids ids = ids_of(1, 3);
    const rtpw_element element = element_of(0, 2, 4);
    size_t i;
    CHECK(rtpw_make_template(SAMPLE, sizeof SAMPLE, &ids, NUMBERS, sizeof NUMBERS, &element, 1, RTPW_ANY_FORM, header,
                             sizeof header, &made) == RTPW_OK);
    memset(receivers, 0, COUNT * sizeof *receivers);
    for (i = 0; i < COUNT; i++) {
        data[2 * i] = (uint8_t)(2 * i + 100);
        data[2 * i + 1] = (uint8_t)(2 * i + 101);
        receivers[i].data_at = 2 * i;
        receivers[i].fields.has_sequence_number = 1;
        receivers[i].fields.sequence_number = (uint16_t)(1000 + i);
        receivers[i].fields.payload_type = 128; /* it isn't given */
        receivers[i].status = 77;
    }
}

/* Twenty receivers, of which the ninth can't be served, each for another cause: those after it take its place. */
static void many(void) {
    rtpw_routed_header receivers[COUNT], before[COUNT];
    uint8_t headers[COUNT * LEN + 1], expected[LEN], data[2 * COUNT];
    size_t i, cause;
    for (cause = 0; cause < 4; cause++) {
        size_t end = 0;
        many_receivers(receivers, data);
        switch (cause) {
        case 0: receivers[8].fields.has_payload_type = 1; break;
        case 1: receivers[8].data_at = 2 * COUNT - 1; break;
        case 2: receivers[8].data_at = (size_t)-1; break;
        default: break;
        }
        memcpy(before, receivers, sizeof before);
        memset(headers, 0xEE, sizeof headers);
        CHECK(rtpw_write_headers(&made, header, sizeof header, data, sizeof data, receivers, COUNT, headers,
                                 sizeof headers) == RTPW_OK);
        for (i = 0; i < COUNT; i++) {
            const int is_refused = i == 8 && cause < 3;
            before[i].status = is_refused ? RTPW_BAD_FIELD : RTPW_OK;
            before[i].at = end;
            before[i].len = is_refused ? 0 : LEN;
            CHECK(memcmp(&receivers[i], &before[i], sizeof before[i]) == 0);
            memcpy(expected, header, LEN);
            expected[2] = (uint8_t)((1000 + i) >> 8);
            expected[3] = (uint8_t)(1000 + i);
            expected[19] = data[2 * i];
            expected[20] = data[2 * i + 1];
            CHECK(is_refused || memcmp(headers + end, expected, LEN) == 0);
            end += before[i].len;
        }
        CHECK(end == LEN * (cause < 3 ? COUNT - 1 : COUNT) && headers[end] == 0xEE && headers[COUNT * LEN] == 0xEE);
    }
}

/* As many as there is room for: the second one is a retransmission, and where it has none the third one has. */
static void as_many_as_fit(void) {
    rtpw_routed_header receivers[COUNT];
    uint8_t headers[101], data[2 * COUNT];
    size_t i, size;
    many_receivers(receivers, data);
    receivers[1].is_retransmission = 1;
    for (size = 0; size < 100; size++) {
        const int has[] = {size >= 24, size >= 50, (size >= 48 && size < 50) || size >= 74};
        memset(headers, 0xEE, sizeof headers);
        CHECK(rtpw_write_headers(&made, header, LEN, data, sizeof data, receivers, 3, headers, size) == RTPW_OK);
        for (i = 0; i < 3; i++) {
            CHECK(receivers[i].status == (has[i] ? RTPW_OK : RTPW_SHORT_BUFFER));
            CHECK(receivers[i].len == (has[i] ? (i == 1 ? 26u : 24u) : 0));
            CHECK(receivers[i].at == (i == 0 ? 0 : receivers[i - 1].at + receivers[i - 1].len));
        }
        CHECK(headers[receivers[2].at + receivers[2].len] == 0xEE);
    }
    CHECK(rtpw_write_headers(&made, header, LEN, NULL, 0, receivers, 3, headers, 33) == RTPW_OK);
    CHECK(receivers[0].status == RTPW_BAD_FIELD && receivers[1].status == RTPW_BAD_FIELD && receivers[2].at == 0);
    CHECK(rtpw_write_headers(&made, header, LEN, NULL, 0, NULL, 0, NULL, 0) == RTPW_OK);
}

/* Of a template that none made the data lie over the fields, and P is cleared last of all. */
static void data_over_fields(void) {
    static const uint8_t plain[12] = {0xA0, 96, 0, 5, REST};
    static const uint8_t wanted[12] = {0x80, 0x7F, 0, 5, REST_45}, kept[12] = {0xA0, 0x7F, 0, 5, REST_45};
    rtpw_routed_header receivers[2];
    rtpw_template it;
    uint8_t headers[24];
    memset(&it, 0, sizeof it);
    memset(receivers, 0, sizeof receivers);
    it.header_len = 12;
    it.count = 1;
    it.data_len[0] = it.data_total = 2;
    receivers[0].fields.has_ssrc = receivers[1].fields.has_ssrc = receivers[0].fields.has_marker = 1;
    receivers[0].fields.ssrc = receivers[1].fields.ssrc = 45;
    receivers[0].fields.marker = 1;
    receivers[0].clears_padding = 1;
    CHECK(rtpw_write_headers(&it, plain, 12, (const uint8_t *)"\xA0\x7F", 2, receivers, 2, headers, 24) == RTPW_OK);
    CHECK(memcmp(headers, wanted, 12) == 0 && memcmp(headers + 12, kept, 12) == 0);
}

/* What is none of a template and a header: nothing is written, and no status either. */
static void is_none(const rtpw_template *it, const uint8_t *bytes, size_t size, int32_t wanted) {
    rtpw_routed_header receiver, before;
    uint8_t headers[300];
    size_t i;
    memset(&receiver, 0, sizeof receiver);
    receiver.status = 77;
    before = receiver;
    memset(headers, 0xEE, sizeof headers);
    CHECK(rtpw_write_headers(it, bytes, size, NUMBERS, sizeof NUMBERS, &receiver, 1, headers, sizeof headers) == wanted);
    CHECK(memcmp(&receiver, &before, sizeof before) == 0);
    for (i = 0; i < sizeof headers; i++) {
        CHECK(headers[i] == 0xEE);
    }
    CHECK(rtpw_write_headers(it, bytes, size, NULL, 0, NULL, 0, NULL, 0) == wanted);
}

static void torn(void) {
    const rtpw_new_ids ids = ids_of(1, 3);
    const rtpw_element element = element_of(0, 2, 4);
    rtpw_template it;
    uint8_t bytes[40];
    CHECK(rtpw_make_template(SAMPLE, sizeof SAMPLE, &ids, NUMBERS, sizeof NUMBERS, &element, 1, RTPW_ANY_FORM, header,
                             sizeof header, &made) == RTPW_OK);
    memcpy(bytes, header, 24);
    memset(bytes + 24, 0, 16);
    is_none(&made, bytes, 23, RTPW_BAD_FIELD);
    it = made, it.count = 17;
    is_none(&it, bytes, sizeof bytes, RTPW_BAD_FIELD);
    it = made, it.count = 255;
    is_none(&it, bytes, sizeof bytes, RTPW_BAD_FIELD);
    it = made, it.count = 0; /* the total is of one */
    is_none(&it, bytes, sizeof bytes, RTPW_BAD_FIELD);
    it = made, it.data_total = 3;
    is_none(&it, bytes, sizeof bytes, RTPW_BAD_FIELD);
    it = made, it.data_at[0] = 23;
    is_none(&it, bytes, sizeof bytes, RTPW_BAD_FIELD);
    it = made, it.data_at[0] = 0xFFFFFFFF;
    is_none(&it, bytes, sizeof bytes, RTPW_BAD_FIELD);
    it = made, it.header_len = 25; /* a byte of payload */
    is_none(&it, bytes, sizeof bytes, RTPW_BAD_FIELD);
    it = made, it.header_len = 23;
    is_none(&it, bytes, sizeof bytes, RTPW_CUT_BLOCK);
    it = made, it.header_len = 0xFFFFFFFF;
    is_none(&it, bytes, sizeof bytes, RTPW_BAD_FIELD);
    memset(&it, 0, sizeof it);
    is_none(&it, bytes, sizeof bytes, RTPW_CUT_FIXED_PART);
    is_none(&it, NULL, 0, RTPW_CUT_FIXED_PART);
    bytes[0] = 0x50;
    is_none(&made, bytes, sizeof bytes, RTPW_OTHER_VERSION);
    it = made, it.count = 17;
    is_none(&it, bytes, sizeof bytes, RTPW_BAD_FIELD);
    bytes[0] = 0x91; /* a source, and then no block */
    is_none(&made, bytes, sizeof bytes, RTPW_CUT_BLOCK);
}

/* What is prepared once makes what rtpw_make_template makes of the same, with zeros as the elements' data. */
static void prepared(void) {
    static const uint8_t first[] = {0x90, 96, 0, 9, REST_45, 0xBE, 0xDE, 0, 2, 0x30, 0xAA, 0x41, 0, 7, 0, 0, 0};
    static const uint8_t common[] = {0x90, 96, 0, 5, REST, 0xBE, 0xDE, 0, 2, 0x30, 0xAA, 0x41, 0, 0, 0, 0, 0};
    static const uint8_t other[] = {0x90, 97, 0, 6, REST, 0x10, 0, 0, 1, 2, 1, 0xBB, 0};
    static const uint8_t wide[] = {0x90, 97, 0, 6, REST, 0x10, 0, 0, 1, 4, 2, 0, 0};
    static const uint8_t zeros[4] = {0};
    const rtpw_new_ids ids = ids_of(1, 3);
    rtpw_element element = element_of(1000, 2, 4); /* where its data lie isn't looked at */
    rtpw_template as_before;
    rtpw_routed_header receiver;
    rtpw_group group;
    uint8_t headers[24];
    int i;
    memset(&group, 0x5A, sizeof group);
    CHECK(rtpw_prepare_group(&ids, &element, 1, RTPW_ANY_FORM, &group) == RTPW_OK);
    CHECK(group.count == 1 && group.data_total == 2 && group.element_ids[0] == 4 && group.data_lens[0] == 2);
    CHECK(group.allowed == RTPW_ANY_FORM && group.one_byte == 1);
    for (i = 0; i < 256; i++) {
        CHECK(group.new_ids[i] == (i == 1 ? 3 : 0) && group.numbers[i] == (i == 4 ? 1 : 0));
    }
    memset(&made, 0x5A, sizeof made);
    CHECK(rtpw_make_from_group(&group, SAMPLE, sizeof SAMPLE, header, sizeof header, &made) == RTPW_OK);
    CHECK(made.header_len == sizeof common && memcmp(header, common, sizeof common) == 0);
    CHECK(made.count == 1 && made.data_at[0] == 19 && made.data_len[0] == 2 && made.data_total == 2);
    memset(&receiver, 0, sizeof receiver);
    receiver.fields.has_sequence_number = receiver.fields.has_ssrc = 1;
    receiver.fields.sequence_number = 9;
    receiver.fields.ssrc = 45;
    CHECK(rtpw_write_headers(&made, header, sizeof header, NUMBERS, sizeof NUMBERS, &receiver, 1, headers,
                             sizeof headers) == RTPW_OK);
    CHECK(receiver.status == RTPW_OK && memcmp(headers, first, sizeof first) == 0);
    element.data_at = 1;
    CHECK(rtpw_make_template(SAMPLE, sizeof SAMPLE, &ids, zeros, sizeof zeros, &element, 1, RTPW_ANY_FORM, header,
                             sizeof header, &as_before) == RTPW_OK);
    CHECK(memcmp(&made, &as_before, (size_t)((uint8_t *)made.data_len - (uint8_t *)&made) + 16) == 0);
    CHECK(memcmp(header, common, sizeof common) == 0);
    /* the same group, a packet in the two-byte form, whose element has no new id */
    CHECK(rtpw_make_from_group(&group, other, sizeof other, header, sizeof header, &made) == RTPW_OK);
    CHECK(made.header_len == sizeof wide && memcmp(header, wide, sizeof wide) == 0 && made.data_at[0] == 18);
    CHECK(rtpw_make_from_group(&group, SAMPLE, 11, header, sizeof header, &made) == RTPW_CUT_FIXED_PART);
    CHECK(rtpw_make_from_group(&group, SAMPLE, sizeof SAMPLE, header, 19, &made) == RTPW_SHORT_BUFFER);
    CHECK(rtpw_prepare_group(&ids, NULL, 0, RTPW_ONE_BYTE_FORM, &group) == RTPW_OK);
    CHECK(rtpw_make_from_group(&group, other, sizeof other, header, sizeof header, &made) == RTPW_OK);
    CHECK(made.header_len == 16 && made.count == 0);
}

/* What can't be a group's, and numbers that are none. */
static void not_prepared(void) {
    const rtpw_new_ids ids = ids_of(1, 3);
    rtpw_element elements[17];
    rtpw_group group, before, torn_group;
    size_t i;
    for (i = 0; i < 17; i++) {
        elements[i] = element_of(0, i, (uint8_t)(1 + i));
    }
    memset(&group, 0x5A, sizeof group);
    before = group;
    CHECK(rtpw_prepare_group(&ids, elements, 17, RTPW_ANY_FORM, &group) == RTPW_BAD_FIELD);
    CHECK(rtpw_prepare_group(&ids, elements, 1, 3, &group) == RTPW_BAD_FIELD);
    elements[1].data_len = 256;
    CHECK(rtpw_prepare_group(&ids, elements, 2, RTPW_ANY_FORM, &group) == RTPW_BAD_FIELD);
    elements[1].data_len = 255;
    elements[1].id = 1;
    CHECK(rtpw_prepare_group(&ids, elements, 2, RTPW_ANY_FORM, &group) == RTPW_BAD_FIELD);
    elements[1].id = 0;
    CHECK(rtpw_prepare_group(&ids, elements, 2, RTPW_ANY_FORM, &group) == RTPW_BAD_ID);
    CHECK(memcmp(&group, &before, sizeof group) == 0);
    elements[1].id = 2;
    CHECK(rtpw_prepare_group(&ids, elements, 16, RTPW_TWO_BYTE_FORM, &group) == RTPW_OK);
    CHECK(group.data_total == 0 + 255 + (2 + 15) * 14 / 2 && group.one_byte == 0 && group.count == 16);
    memset(&made, 0x5A, sizeof made);
    for (i = 0; i < 9; i++) {
        torn_group = group;
        switch (i) {
        case 0: torn_group.count = 17; break;
        case 1: torn_group.allowed = 3; break;
        case 2: torn_group.new_ids[0] = 1; break;
        case 3: torn_group.numbers[0] = 1; break;
        case 4: torn_group.numbers[2] = 1; break;
        case 5: torn_group.element_ids[3] = 200; break;
        case 6: torn_group.data_lens[3]++; break;
        case 7: torn_group.data_total--; break;
        default: torn_group.one_byte = 1; break;
        }
        CHECK(rtpw_make_from_group(&torn_group, SAMPLE, sizeof SAMPLE, header, sizeof header, &made) == RTPW_BAD_FIELD);
    }
    CHECK(made.count == 0x5A);
}

int main(void) {
    two_receivers();
    prepared();
    not_prepared();
    retransmissions();
    groups();
    refusals();
    without_padding();
    many();
    as_many_as_fit();
    data_over_fields();
    torn();
    return failed;
}
