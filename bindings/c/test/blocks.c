/* The block of a packet, taken off, made one of the other form, with an element behind its own, and put there whole.
 * The expected bytes are worked out by hand from RFC 3550, 5.1 and 5.3.1, and RFC 8285, 4.1.2, 4.2 and 4.3. */
#include "../rtp_wire.h"

#include <stdio.h>
#include <string.h>

static int failed = 0;

#define CHECK(holds) \
    do { \
        if (!(holds)) { \
            printf("line %d, row %d: %s\n", __LINE__, (int)row, #holds); \
            failed = 1; \
        } \
    } while (0)

/* The buffer, and the length of the packet in it. Behind the packet each byte is another one. */
enum { SIZE = 80 };
static uint8_t buf[SIZE], before[SIZE];
static size_t len;

/* Bytes in C's text, whose last zero isn't one of them. */
#define BYTES(text) (const uint8_t *)(text), sizeof(text) - 1

/* PT=96; 5; 100; 44; with X and without. */
#define WITH "\x90\x60\0\5\0\0\0\x64\0\0\0\x2C"
#define WITHOUT "\x80\x60\0\5\0\0\0\x64\0\0\0\x2C"

static void begin(const uint8_t *packet, size_t packet_len) {
    size_t i;
    for (i = 0; i < SIZE; i++) {
        buf[i] = (uint8_t)(0xFF - i);
    }
    memcpy(buf, packet, packet_len);
    memcpy(before, buf, SIZE);
    len = packet_len;
}

/* The packet is this one, and behind it stands what stood there. */
static bool is(const uint8_t *packet, size_t packet_len) {
    return len == packet_len && memcmp(buf, packet, len) == 0 && memcmp(buf + len, before + len, SIZE - len) == 0;
}

typedef struct {
    const uint8_t *packet;
    size_t packet_len;
    const uint8_t *wanted;
    size_t wanted_len;
} change;

static void blocks_are_taken_off(void) {
    static const change ROWS[] = {
        {BYTES(WITH "\xBE\xDE\0\1\x10\xAA\0\0\1"), BYTES(WITHOUT "\1")},
        {BYTES(WITH "\x10\x0A\0\1\3\1\xBB\0\1\2"), BYTES(WITHOUT "\1\2")},
        {BYTES(WITH "\xC0\xDE\0\0\7\x8"), BYTES(WITHOUT "\7\x8")},
        {BYTES(WITH "\xAB\xAC\0\1\1\2\3\4"), BYTES(WITHOUT)},
        {BYTES(WITHOUT "\1"), BYTES(WITHOUT "\1")},
        /* V=2, P, X, CC=2; M: all of it stays but X */
        {BYTES("\xB2\xE1\0\6\0\0\0\x65\0\0\0\x2D\0\0\0\1\0\0\0\2\xAB\xAC\0\2\1\2\3\4\5\6\7\x8\xA\xB\0\2"),
         BYTES("\xA2\xE1\0\6\0\0\0\x65\0\0\0\x2D\0\0\0\1\0\0\0\2\xA\xB\0\2")},
    };
    size_t row;
    for (row = 0; row < sizeof ROWS / sizeof *ROWS; row++) {
        begin(ROWS[row].packet, ROWS[row].packet_len);
        CHECK(rtpw_remove_block(buf, SIZE, &len) == RTPW_OK);
        CHECK(is(ROWS[row].wanted, ROWS[row].wanted_len));
    }
}

/* A block of no words is left where the last element is gone. */
static void last_element_goes(void) {
    size_t row = 0;
    rtpw_packet packet;
    begin(BYTES(WITH "\xBE\xDE\0\1\x10\xAA\0\0\1"));
    CHECK(rtpw_remove_element(buf, len, 1) == RTPW_OK);
    CHECK(rtpw_compact(buf, SIZE, &len) == RTPW_OK && len == 17);
    CHECK(rtpw_packet_parse(buf, len, &packet) == RTPW_OK);
    CHECK(packet.block_form == RTPW_ONE_BYTE_FORM && packet.body_len == 0);
    CHECK(rtpw_remove_block(buf, SIZE, &len) == RTPW_OK);
    CHECK(len == 13 && memcmp(buf, WITHOUT "\1", 13) == 0);
}

static void forms_are_changed(void) {
    static const change TO_TWO[] = {
        {BYTES(WITH "\xBE\xDE\0\1\x10\xAA\0\0\1"), BYTES(WITH "\x10\0\0\1\1\1\xAA\0\1")},
        {BYTES(WITH "\xBE\xDE\0\1\x10\xAA\x20\xBB\1"), BYTES(WITH "\x10\0\0\2\1\1\xAA\2\1\xBB\0\0\1")},
        /* an element of the id 0, one of the id 15, which ends reading, and one that is cut short */
        {BYTES(WITH "\xBE\xDE\0\1\1\xAA\xBB\0\1"), BYTES(WITH "\x10\0\0\1\0\0\0\0\1")},
        {BYTES(WITH "\xBE\xDE\0\2\x10\xAA\xF0\1\2\3\4\5\1"), BYTES(WITH "\x10\0\0\2\1\1\xAA\0\0\0\0\0\1")},
        {BYTES(WITH "\xBE\xDE\0\2\0\0\x11\xAA\xBB\0\0\x2F\1"), BYTES(WITH "\x10\0\0\2\1\2\xAA\xBB\0\0\0\0\1")},
        {BYTES(WITH "\xBE\xDE\0\0\1"), BYTES(WITH "\x10\0\0\0\1")},
        /* the form is there already, or no block is */
        {BYTES(WITH "\x10\7\0\1\1\1\xAA\x9\1"), BYTES(WITH "\x10\7\0\1\1\1\xAA\x9\1")},
        {BYTES(WITHOUT "\1"), BYTES(WITHOUT "\1")},
    };
    static const change TO_ONE[] = {
        {BYTES(WITH "\x10\xF\0\2\1\1\xAA\2\2\xBB\xCC\0\1"), BYTES(WITH "\xBE\xDE\0\2\x10\xAA\x21\xBB\xCC\0\0\0\1")},
        {BYTES(WITH "\x10\0\0\2\0\0\xE\1\xAA\0\5\1\1"), BYTES(WITH "\xBE\xDE\0\2\xE0\xAA\0\0\0\0\0\0\1")},
        {BYTES(WITH "\x10\0\0\5\1\x10klmnopqrstuvwxyz\0\0\1"), BYTES(WITH "\xBE\xDE\0\5\x1Fklmnopqrstuvwxyz\0\0\0\1")},
        {BYTES(WITH "\x10\3\0\0\1"), BYTES(WITH "\xBE\xDE\0\0\1")},
        {BYTES(WITH "\xBE\xDE\0\1\x10\xAA\xF0\1\1"), BYTES(WITH "\xBE\xDE\0\1\x10\xAA\xF0\1\1")},
    };
    size_t row;
    for (row = 0; row < sizeof TO_TWO / sizeof *TO_TWO; row++) {
        begin(TO_TWO[row].packet, TO_TWO[row].packet_len);
        CHECK(rtpw_change_form(buf, SIZE, &len, RTPW_TWO_BYTE_FORM) == RTPW_OK);
        CHECK(is(TO_TWO[row].wanted, TO_TWO[row].wanted_len));
    }
    for (row = 0; row < sizeof TO_ONE / sizeof *TO_ONE; row++) {
        begin(TO_ONE[row].packet, TO_ONE[row].packet_len);
        CHECK(rtpw_change_form(buf, SIZE, &len, RTPW_ONE_BYTE_FORM) == RTPW_OK);
        CHECK(is(TO_ONE[row].wanted, TO_ONE[row].wanted_len));
    }
}

/* The id 15, no data, and 17 bytes of them: the one-byte form carries none of these, and the id is told first. A block
 * of another form has neither of the two. */
static void forms_stay(void) {
    static const struct {
        const uint8_t *packet;
        size_t packet_len;
        uint8_t form;
        int32_t status;
    } ROWS[] = {
        {BYTES(WITH "\x10\0\0\1\xF\1\xAA\0"), RTPW_ONE_BYTE_FORM, RTPW_LONG_ID},
        {BYTES(WITH "\x10\0\0\2\1\1\xAA\2\0\xFF\0\0"), RTPW_ONE_BYTE_FORM, RTPW_LONG_ID},
        {BYTES(WITH "\x10\0\0\1\xE\0\0\xF"), RTPW_ONE_BYTE_FORM, RTPW_FORM_NOT_ALLOWED},
        {BYTES(WITH "\x10\0\0\1\1\0\0\0"), RTPW_ONE_BYTE_FORM, RTPW_FORM_NOT_ALLOWED},
        {BYTES(WITH "\x10\0\0\5\1\x11klmnopqrstuvwxyz{\0"), RTPW_ONE_BYTE_FORM, RTPW_FORM_NOT_ALLOWED},
        {BYTES(WITH "\xAB\xAC\0\1\1\2\3\4"), RTPW_ONE_BYTE_FORM, RTPW_UNKNOWN_FORM},
        {BYTES(WITH "\xAB\xAC\0\1\1\2\3\4"), RTPW_TWO_BYTE_FORM, RTPW_UNKNOWN_FORM},
        {BYTES(WITH "\xAB\xAC\0\1\1\2\3\4"), RTPW_OTHER_FORM, RTPW_BAD_FIELD},
        {BYTES(WITHOUT), RTPW_NO_BLOCK, RTPW_BAD_FIELD},
        {BYTES(WITHOUT), 255, RTPW_BAD_FIELD},
        {BYTES(WITH "\xBE\xDE\0\1\x10\xAA\0"), RTPW_TWO_BYTE_FORM, RTPW_CUT_BLOCK},
    };
    size_t row;
    for (row = 0; row < sizeof ROWS / sizeof *ROWS; row++) {
        begin(ROWS[row].packet, ROWS[row].packet_len);
        CHECK(rtpw_change_form(buf, SIZE, &len, ROWS[row].form) == ROWS[row].status);
        CHECK(is(ROWS[row].packet, ROWS[row].packet_len));
    }
    /* 25 bytes are needed, and there are 24, and then 25 */
    row = 99;
    begin(BYTES(WITH "\xBE\xDE\0\1\x10\xAA\x20\xBB\1"));
    CHECK(rtpw_change_form(buf, 24, &len, RTPW_TWO_BYTE_FORM) == RTPW_SHORT_BUFFER);
    CHECK(is(BYTES(WITH "\xBE\xDE\0\1\x10\xAA\x20\xBB\1")));
    CHECK(rtpw_change_form(buf, 25, &len, RTPW_TWO_BYTE_FORM) == RTPW_OK && len == 25);
}

static void elements_are_added(void) {
    static const struct {
        const uint8_t *packet;
        size_t packet_len;
        uint8_t id, allowed;
        const uint8_t *data;
        size_t data_len;
        int32_t status;
        const uint8_t *wanted;
        size_t wanted_len;
    } ROWS[] = {
        /* a second one of the id, in the padding; one more word; none before */
        {BYTES(WITH "\xBE\xDE\0\1\x10\xAA\0\0\1"), 1, RTPW_ANY_FORM, BYTES("\xBB"), RTPW_OK,
         BYTES(WITH "\xBE\xDE\0\1\x10\xAA\x10\xBB\1")},
        {BYTES(WITH "\xBE\xDE\0\1\x10\xAA\0\0\1"), 1, RTPW_ONE_BYTE_FORM, BYTES("\7\x8"), RTPW_OK,
         BYTES(WITH "\xBE\xDE\0\2\x10\xAA\x11\7\x8\0\0\0\1")},
        {BYTES(WITHOUT "\1"), 3, RTPW_ANY_FORM, BYTES("\7"), RTPW_OK, BYTES(WITH "\xBE\xDE\0\1\x30\7\0\0\1")},
        {BYTES(WITHOUT "\1"), 3, RTPW_TWO_BYTE_FORM, BYTES("\7"), RTPW_OK, BYTES(WITH "\x10\0\0\1\3\1\7\0\1")},
        /* the two-byte form is needed, or alone is allowed */
        {BYTES(WITH "\xBE\xDE\0\1\x10\xAA\0\0\1"), 20, RTPW_ANY_FORM, BYTES("\7"), RTPW_OK,
         BYTES(WITH "\x10\0\0\2\1\1\xAA\x14\1\7\0\0\1")},
        {BYTES(WITH "\xBE\xDE\0\1\x10\xAA\0\0\1"), 1, RTPW_TWO_BYTE_FORM, BYTES("\xBB"), RTPW_OK,
         BYTES(WITH "\x10\0\0\2\1\1\xAA\1\1\xBB\0\0\1")},
        {BYTES(WITH "\x10\5\0\1\1\1\xAA\0\1"), 1, RTPW_ANY_FORM, BYTES(""), RTPW_OK,
         BYTES(WITH "\x10\5\0\2\1\1\xAA\1\0\0\0\0\1")},
        /* an element of the id 0, and what stands where reading ends, go */
        {BYTES(WITH "\xBE\xDE\0\2\1\x9\x9\x10\xAA\xF0\7\7\1"), 2, RTPW_ANY_FORM, BYTES("\xBB"), RTPW_OK,
         BYTES(WITH "\xBE\xDE\0\2\x10\xAA\x20\xBB\0\0\0\0\1")},
        {BYTES(WITH "\xBE\xDE\0\1\x10\xAA\0\0\1"), 0, RTPW_ANY_FORM, BYTES("\xBB"), RTPW_BAD_ID, NULL, 0},
        {BYTES(WITH "\xBE\xDE\0\1\x10\xAA\0\0\1"), 15, RTPW_ONE_BYTE_FORM, BYTES("\xBB"), RTPW_LONG_ID, NULL, 0},
        {BYTES(WITH "\x10\5\0\1\1\1\xAA\0\1"), 255, RTPW_ONE_BYTE_FORM, BYTES(""), RTPW_LONG_ID, NULL, 0},
        {BYTES(WITH "\xAB\xAC\0\1\1\2\3\4"), 15, RTPW_ONE_BYTE_FORM, BYTES("\xBB"), RTPW_UNKNOWN_FORM, NULL, 0},
        {BYTES(WITH "\xBE\xDE\0\1\x10\xAA\0\0\1"), 14, RTPW_ONE_BYTE_FORM, BYTES(""), RTPW_FORM_NOT_ALLOWED, NULL, 0},
        {BYTES(WITH "\x10\5\0\1\1\1\xAA\0\1"), 1, RTPW_ONE_BYTE_FORM, BYTES("\xBB"), RTPW_FORM_NOT_ALLOWED, NULL, 0},
        {BYTES(WITH "\xAB\xAC\0\1\1\2\3\4"), 1, RTPW_ANY_FORM, BYTES("\xBB"), RTPW_UNKNOWN_FORM, NULL, 0},
        {BYTES(WITH "\xAB\xAC\0\1\1\2\3\4"), 1, RTPW_OTHER_FORM, BYTES("\xBB"), RTPW_BAD_FIELD, NULL, 0},
        {BYTES(WITH "\xBE\xDE\0\1\x10"), 1, RTPW_ANY_FORM, BYTES("\xBB"), RTPW_CUT_BLOCK, NULL, 0},
        {BYTES("\x50"), 0, RTPW_ANY_FORM, BYTES("\xBB"), RTPW_BAD_ID, NULL, 0},
    };
    size_t row;
    for (row = 0; row < sizeof ROWS / sizeof *ROWS; row++) {
        bool is_added = ROWS[row].status == RTPW_OK;
        begin(ROWS[row].packet, ROWS[row].packet_len);
        CHECK(rtpw_add_element(buf, SIZE, &len, ROWS[row].id, ROWS[row].data, ROWS[row].data_len, ROWS[row].allowed) ==
              ROWS[row].status);
        CHECK(is_added ? is(ROWS[row].wanted, ROWS[row].wanted_len) : is(ROWS[row].packet, ROWS[row].packet_len));
    }
}

/* The last byte of the buffer is used, and one more isn't there. */
static void elements_have_room(void) {
    static const uint8_t data[256] = {7};
    const size_t row = 0;
    begin(BYTES(WITH "\xBE\xDE\0\1\x10\xAA\0\0\1"));
    CHECK(rtpw_add_element(buf, 24, &len, 1, data, 2, RTPW_ANY_FORM) == RTPW_SHORT_BUFFER);
    CHECK(rtpw_add_element(buf, SIZE, &len, 1, data, 256, RTPW_ANY_FORM) == RTPW_BAD_FIELD);
    CHECK(rtpw_add_element(buf, SIZE, &len, 0, data, 256, RTPW_ANY_FORM) == RTPW_BAD_ID);
    CHECK(is(BYTES(WITH "\xBE\xDE\0\1\x10\xAA\0\0\1")));
    CHECK(rtpw_add_element(buf, 25, &len, 1, data, 2, RTPW_ANY_FORM) == RTPW_OK);
    CHECK(is(BYTES(WITH "\xBE\xDE\0\2\x10\xAA\x11\7\0\0\0\0\1")));
    len = SIZE + 1;
    CHECK(rtpw_add_element(buf, SIZE, &len, 0, data, 2, RTPW_ANY_FORM) == RTPW_BAD_FIELD && len == SIZE + 1);
    CHECK(rtpw_change_form(buf, SIZE, &len, RTPW_TWO_BYTE_FORM) == RTPW_BAD_FIELD && len == SIZE + 1);
    CHECK(rtpw_remove_block(buf, SIZE, &len) == RTPW_BAD_FIELD && len == SIZE + 1);
    CHECK(rtpw_put_block(buf, SIZE, &len, 0xABAC, data, 4) == RTPW_BAD_FIELD && len == SIZE + 1);
}

static void blocks_are_put(void) {
    static const struct {
        const uint8_t *packet;
        size_t packet_len;
        uint16_t profile;
        const uint8_t *body;
        size_t body_len;
        const uint8_t *wanted;
        size_t wanted_len;
    } ROWS[] = {
        {BYTES(WITHOUT "\1"), 0xABAC, BYTES("\1\2\3\4"), BYTES(WITH "\xAB\xAC\0\1\1\2\3\4\1")},
        {BYTES(WITHOUT "\1"), 0xC0DE, BYTES(""), BYTES(WITH "\xC0\xDE\0\0\1")},
        /* in place of a longer one, of one as long, and of a shorter one */
        {BYTES(WITH "\xBE\xDE\0\2\x10\xAA\0\0\0\0\0\0\1\2"), 0, BYTES("\1\2\3\4"), BYTES(WITH "\0\0\0\1\1\2\3\4\1\2")},
        {BYTES(WITH "\xBE\xDE\0\1\x10\xAA\0\0\1"), 0xFFFF, BYTES("\1\2\3\4"), BYTES(WITH "\xFF\xFF\0\1\1\2\3\4\1")},
        {BYTES(WITH "\x10\5\0\0\1\2"), 0xBEDE, BYTES("\x10\xAA\0\0\0\0\0\0"),
         BYTES(WITH "\xBE\xDE\0\2\x10\xAA\0\0\0\0\0\0\1\2")},
        {BYTES("\xB1\xE1\0\6\0\0\0\x65\0\0\0\x2D\0\0\0\1\xBE\xDE\0\0\xA\1"), 0x100F, BYTES("\1\0\0\0"),
         BYTES("\xB1\xE1\0\6\0\0\0\x65\0\0\0\x2D\0\0\0\1\x10\xF\0\1\1\0\0\0\xA\1")},
    };
    size_t row;
    for (row = 0; row < sizeof ROWS / sizeof *ROWS; row++) {
        begin(ROWS[row].packet, ROWS[row].packet_len);
        CHECK(rtpw_put_block(buf, SIZE, &len, ROWS[row].profile, ROWS[row].body, ROWS[row].body_len) == RTPW_OK);
        CHECK(is(ROWS[row].wanted, ROWS[row].wanted_len));
    }
}

/* The longest block has 65,535 words. */
static void blocks_have_room(void) {
    static uint8_t body[4 * 65536 + 1], whole[12 + 4 + sizeof body];
    size_t row, whole_len = 12;
    static const size_t CUT[] = {1, 2, 3, 5, 262141, 262143, 262145};
    begin(BYTES(WITHOUT));
    for (row = 0; row < sizeof CUT / sizeof *CUT; row++) {
        CHECK(rtpw_put_block(buf, SIZE, &len, 0xABAC, body, CUT[row]) == RTPW_BAD_FIELD);
    }
    CHECK(rtpw_put_block(buf, SIZE, &len, 0xABAC, body, 4 * 65536) == RTPW_LONG_BLOCK);
    CHECK(rtpw_put_block(buf, SIZE, &len, 0xABAC, body, 4 * 65535) == RTPW_SHORT_BUFFER);
    CHECK(rtpw_put_block(buf, 19, &len, 0xABAC, body, 4) == RTPW_SHORT_BUFFER);
    CHECK(is(BYTES(WITHOUT)));
    CHECK(rtpw_put_block(buf, 20, &len, 0xABAC, body, 4) == RTPW_OK && len == 20);
    begin(BYTES("\x50"));
    CHECK(rtpw_put_block(buf, SIZE, &len, 0xABAC, body, 3) == RTPW_BAD_FIELD);
    CHECK(rtpw_put_block(buf, SIZE, &len, 0xABAC, body, 4 * 65536) == RTPW_LONG_BLOCK);
    CHECK(rtpw_put_block(buf, SIZE, &len, 0xABAC, body, 4) == RTPW_CUT_FIXED_PART);
    /* elements of one byte each, in the one-byte form, fill the longest body: in the other form it would be longer */
    memcpy(whole, WITHOUT, 12);
    memset(body, 0x10, sizeof body);
    CHECK(rtpw_put_block(whole, sizeof whole, &whole_len, 0xBEDE, body, 4 * 65535) == RTPW_OK);
    CHECK(whole_len == 12 + 4 + 4 * 65535 && whole[14] == 0xFF && whole[15] == 0xFF);
    CHECK(rtpw_change_form(whole, sizeof whole, &whole_len, RTPW_TWO_BYTE_FORM) == RTPW_LONG_BLOCK);
    CHECK(rtpw_add_element(whole, sizeof whole, &whole_len, 1, buf, 1, RTPW_ANY_FORM) == RTPW_LONG_BLOCK);
    CHECK(rtpw_put_element(whole, sizeof whole, &whole_len, 2, buf, 1, RTPW_ANY_FORM) == RTPW_LONG_BLOCK);
    CHECK(whole_len == 12 + 4 + 4 * 65535);
}

int main(void) {
    blocks_are_taken_off();
    last_element_goes();
    forms_are_changed();
    forms_stay();
    elements_are_added();
    elements_have_room();
    blocks_are_put();
    blocks_have_room();
    return failed;
}
