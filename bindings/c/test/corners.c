/* What the header file says of corners: which bytes change and which stay, which of several faults is told, and what
 * isn't looked at. The expected values are worked out by hand. */
#include "../rtp_wire.h"

#include <stdio.h>
#include <string.h>

static int failed = 0;

#define CHECK(holds) \
    do { \
        if (!(holds)) { \
            printf("line %d: %s\n", __LINE__, #holds); \
            failed = 1; \
        } \
    } while (0)

/* V=2, X; PT=96; 1; 2; 3; then a block of one word, and a payload of one byte. */
#define FIXED_PART 0x90, 0x60, 0, 1, 0, 0, 0, 2, 0, 0, 0, 3
static const uint8_t ONE_BYTE[21] = {FIXED_PART, 0xBE, 0xDE, 0, 1, 0x10, 0xAA, 0, 0, 0x77};
static const uint8_t TWO_BYTE[21] = {FIXED_PART, 0x10, 0x05, 0, 1, 1, 1, 0xAA, 0, 0x77};

/* Puts one element of the id 1 into a copy of a packet of 21 bytes, and looks at the block. */
static int put_gives(const uint8_t *packet, uint8_t byte, uint8_t allowed, int32_t status, const uint8_t *block) {
    uint8_t buf[32];
    size_t len = 21, i;
    memset(buf, 0xEE, sizeof buf);
    memcpy(buf, packet, 21);
    if (rtpw_put_element(buf, sizeof buf, &len, 1, &byte, 1, allowed) != status || len != 21) {
        return 0;
    }
    for (i = 21; i < sizeof buf; i++) {
        if (buf[i] != 0xEE) {
            return 0;
        }
    }
    return memcmp(buf, packet, 12) == 0 && memcmp(buf + 12, block, 8) == 0 && buf[20] == 0x77;
}

/* An element of as many bytes in each form that is allowed, and the low four bits of a two-byte profile. */
static void forms_of_a_put_element(void) {
    static const uint8_t ONE[8] = {0xBE, 0xDE, 0, 1, 0x10, 0xBB, 0, 0};
    static const uint8_t MADE_TWO[8] = {0x10, 0x00, 0, 1, 1, 1, 0xBB, 0};
    static const uint8_t TWO[8] = {0x10, 0x05, 0, 1, 1, 1, 0xBB, 0};
    CHECK(put_gives(ONE_BYTE, 0xBB, RTPW_ANY_FORM, RTPW_OK, ONE));
    CHECK(put_gives(ONE_BYTE, 0xBB, RTPW_ONE_BYTE_FORM, RTPW_OK, ONE));
    CHECK(put_gives(ONE_BYTE, 0xBB, RTPW_TWO_BYTE_FORM, RTPW_OK, MADE_TWO));
    CHECK(put_gives(TWO_BYTE, 0xBB, RTPW_ANY_FORM, RTPW_OK, TWO));
    CHECK(put_gives(TWO_BYTE, 0xBB, RTPW_ONE_BYTE_FORM, RTPW_FORM_NOT_ALLOWED, TWO_BYTE + 12));
    CHECK(put_gives(TWO_BYTE, 0xBB, RTPW_TWO_BYTE_FORM, RTPW_OK, TWO));
}

/* A block without elements stays one, of no words; that of another form stays whole. */
static void block_without_elements(void) {
    static const uint8_t EMPTY[25] = {FIXED_PART, 0x10, 0x05, 0, 2, 0, 0, 0, 0, 0, 0, 0, 0, 0x77};
    static const uint8_t OTHER[25] = {FIXED_PART, 0xAB, 0xAC, 0, 2, 0, 0, 0, 0, 0, 0, 0, 0, 0x77};
    uint8_t buf[25];
    size_t len = 25;
    memcpy(buf, EMPTY, 25);
    CHECK(rtpw_compact(buf, 25, &len) == RTPW_OK && len == 17 && memcmp(buf, EMPTY, 14) == 0);
    CHECK(buf[14] == 0 && buf[15] == 0 && buf[16] == 0x77);
    memcpy(buf, OTHER, 25);
    len = 25;
    CHECK(rtpw_compact(buf, 25, &len) == RTPW_OK && len == 25 && memcmp(buf, OTHER, 25) == 0);
}

/* P is cleared on both ways, and the first of several faults is told. */
static void retransmissions(void) {
    static const uint8_t PADDED[17] = {0xA0, 0xE0, 0, 1, 0, 0, 0, 2, 0, 0, 0, 3, 0x77, 0x78, 0, 0, 3};
    static const uint8_t SENT[16] = {0x80, 0xE1, 0, 7, 0, 0, 0, 2, 0, 0, 0, 9, 0, 1, 0x77, 0x78};
    static const uint8_t BACK[14] = {0x80, 0xE0, 0, 1, 0, 0, 0, 2, 0, 0, 0, 3, 0x77, 0x78};
    static const rtpw_new_ids HIGH = {{0, 15}};
    static const rtpw_map NONE = {{0}};
    rtpw_new_ids same;
    uint8_t buf[32];
    size_t len = 17;
    rtpw_new_ids_to_retransmission(&NONE, &same);
    memset(buf, 0xEE, sizeof buf);
    memcpy(buf, PADDED, 17);
    CHECK(rtpw_to_retransmission(buf, 32, &len, 9, 0x61, 7, &same) == RTPW_OK && len == 16);
    CHECK(memcmp(buf, SENT, 16) == 0 && buf[16] == 3 && buf[17] == 0xEE);
    buf[0] |= 0x20;
    buf[16] = 1;
    len = 17;
    CHECK(rtpw_from_retransmission(buf, 32, &len, 3, 0x60, &same) == RTPW_OK && len == 14);
    CHECK(memcmp(buf, BACK, 14) == 0 && buf[16] == 1 && buf[17] == 0xEE);
    /* A payload of a byte less than a number, and an id that the form can't carry: the payload is told first. */
    memcpy(buf, ONE_BYTE, 21);
    len = 21;
    CHECK(rtpw_from_retransmission(buf, 32, &len, 3, 0x60, &HIGH) == RTPW_NONE && len == 21);
    len = 22;
    CHECK(rtpw_from_retransmission(buf, 32, &len, 3, 0x60, &HIGH) == RTPW_LONG_ID && len == 22);
    len = 21;
    CHECK(rtpw_to_retransmission(buf, 21, &len, 9, 0x61, 7, &HIGH) == RTPW_LONG_ID && memcmp(buf, ONE_BYTE, 21) == 0);
    /* The padding's count of 9 before both, and a count of 1 leaves no byte of the payload. */
    buf[0] |= 0x20;
    buf[20] = 9;
    CHECK(rtpw_from_retransmission(buf, 32, &len, 3, 0x60, &HIGH) == RTPW_BAD_FIELD);
    buf[20] = 1;
    CHECK(rtpw_from_retransmission(buf, 32, &len, 3, 0x60, &HIGH) == RTPW_NONE);
    buf[0] = 0x50;
    CHECK(rtpw_from_retransmission(buf, 32, &len, 3, 0x60, &HIGH) == RTPW_OTHER_VERSION);
    CHECK(rtpw_from_retransmission(buf, 20, &len, 3, 0x60, &HIGH) == RTPW_BAD_FIELD);
}

/* The padding takes the place of the first byte where the header has none. */
static void padding_of_no_header(void) {
    uint8_t buf[3] = {0xEE, 0xEE, 0xEE};
    size_t count = 0;
    CHECK(rtpw_pad(buf, 3, 0, 1, 1, &count) == RTPW_OK && count == 1);
    CHECK(buf[0] == 1 && buf[1] == 0xEE && buf[2] == 0xEE);
}

/* Two bytes tell RTCP. */
static void fewer_bytes_than_rtcp_has(void) {
    static const uint8_t REPORT[4] = {0x80, 200, 0, 0};
    CHECK(!rtpw_is_rtcp(REPORT, 0) && !rtpw_is_rtcp(REPORT, 1) && rtpw_is_rtcp(REPORT, 2));
    CHECK(rtpw_is_rtcp(REPORT, 3) && rtpw_is_rtcp(REPORT, 4));
}

/* Characters of one and two bytes, a zero, and what is no UTF-8. */
static void texts(void) {
    static const rtpw_map MAP = {{0, RTPW_KIND_MID}};
    uint8_t packet[20] = {FIXED_PART, 0xBE, 0xDE, 0, 1, 0x12, 'a', 0xC3, 0xA9};
    rtpw_header header;
    CHECK(rtpw_parse(packet, 20, &MAP, &header) == RTPW_OK && header.values.has_mid == 1);
    CHECK(strcmp(header.values.mid, "a_") == 0);
    packet[18] = 0;
    packet[19] = 'b';
    CHECK(rtpw_parse(packet, 20, &MAP, &header) == RTPW_OK && strcmp(header.values.mid, "a_b") == 0);
    packet[18] = 0xFF;
    CHECK(rtpw_parse(packet, 20, &MAP, &header) == RTPW_OK && header.values.has_mid == 0);
}

/* What stands after the last rate, layer and stream, and the spare half after a third mask. */
static void layers_not_looked_at(void) {
    static const rtpw_map MAP = {{0, RTPW_KIND_LAYERS}};
    /* One stream of one layer: 0 in both its counts, the mask 1; one rate; 300 kbit/s. */
    static const uint8_t ONE[4] = {0x01, 0x00, 0xAC, 0x02};
    /* Three streams whose masks 1, 3 and 1 differ: 2 for three streams; the masks, and 15; four counts of one; 1 to 4. */
    static const uint8_t THREE[8] = {0x20, 0x13, 0x1F, 0x00, 1, 2, 3, 4};
    rtpw_header header = {0};
    rtpw_layers layers = {0};
    uint8_t buf[64];
    size_t len, i;
    header.has_extension = 1;
    layers.count = layers.streams[0].count = layers.streams[0].layers[0].rates = 1;
    layers.streams[0].layers[0].kbps[0] = 300;
    layers.streams[0].layers[0].kbps[1] = UINT64_MAX;
    layers.streams[0].layers[1].rates = 9;
    layers.streams[1].count = 9;
    CHECK(rtpw_write_layers(&MAP, &header, &layers, buf, sizeof buf, &len) == RTPW_OK && len == 24);
    CHECK(buf[16] == 1 && buf[17] == 4 && memcmp(buf + 18, ONE, 4) == 0);
    memset(&layers, 0, sizeof layers);
    layers.count = 3;
    for (i = 0; i < 3; i++) {
        layers.streams[i].count = i == 1 ? 2 : 1;
        layers.streams[i].layers[0].rates = 1;
        layers.streams[i].layers[0].kbps[0] = i == 2 ? 4 : i + 1;
    }
    layers.streams[1].layers[1].rates = 1;
    layers.streams[1].layers[1].kbps[0] = 3;
    CHECK(rtpw_write_layers(&MAP, &header, &layers, buf, sizeof buf, &len) == RTPW_OK && len == 28);
    CHECK(buf[16] == 1 && buf[17] == 8 && memcmp(buf + 18, THREE, 8) == 0);
}

/* Bits that numbers below 0 would have: none after the first number, and none counts for a later one. */
static void bits_below_0(void) {
    rtpw_wide_receiver receiver = {0};
    uint64_t words[2] = {UINT64_MAX, UINT64_MAX}, number = 0;
    CHECK(rtpw_wide_receiver_receive(&receiver, words, 2, 5, &number) == RTPW_OK && number == 5);
    CHECK(words[0] == 1 << 5 && words[1] == 0);
    words[0] = words[1] = UINT64_MAX;
    CHECK(rtpw_wide_receiver_receive(&receiver, words, 2, 10, &number) == RTPW_OK && number == 10);
    CHECK(rtpw_wide_receiver_accepts(&receiver, words, 2, 6) && rtpw_wide_receiver_accepts(&receiver, words, 2, 9));
    CHECK(!rtpw_wide_receiver_accepts(&receiver, words, 2, 5));
}

/* The bounds of {0}, the number that is written at RTPW_RESTARTED, and the state where a packet is refused. */
static void restarting(void) {
    static const rtpw_restarting_receiver NEW = {0};
    rtpw_restarting_receiver receiver = NEW;
    uint64_t number = 77;
    CHECK(rtpw_restarting_receive(&receiver, 2000, &number) == RTPW_OK && number == 67536);
    CHECK(rtpw_restarting_receive(&receiver, 1873, &number) == RTPW_OK && number == 67409);
    CHECK(rtpw_restarting_receive(&receiver, 4999, &number) == RTPW_OK && number == 70535);
    CHECK(rtpw_restarting_receive(&receiver, 7999, &number) == RTPW_REFUSED && number == 70535);
    CHECK(receiver.in_row == 1 && receiver.next == 8000 && receiver.highest == 70535);
    CHECK(rtpw_restarting_receive(&receiver, 8000, &number) == RTPW_RESTARTED && (number & 0xFFFF) == 8000);
    /* Two retransmissions in a row, 128 and more below the highest. */
    receiver = NEW;
    CHECK(rtpw_restarting_receive(&receiver, 1999, &number) == RTPW_OK);
    CHECK(rtpw_restarting_receive(&receiver, 1800, &number) == RTPW_REFUSED);
    CHECK(rtpw_restarting_receive(&receiver, 1801, &number) == RTPW_RESTARTED);
}

int main(void) {
    forms_of_a_put_element();
    block_without_elements();
    retransmissions();
    padding_of_no_header();
    fewer_bytes_than_rtcp_has();
    texts();
    layers_not_looked_at();
    bits_below_0();
    restarting();
    return failed;
}
