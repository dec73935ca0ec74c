/* What MemorySanitizer tells of each byte of a packet that the calls of rtp_wire.h are given, where that byte alone
 * isn't set: that it is read, or where it lies afterwards. Which are read and which are moved is what rtp_wire.h says of
 * each call. Prints how many bytes were tried, or the first of which it is told wrongly. */
#include <string.h>

#include "../rtp_wire.h"
#include "told.h"

enum { ROOM = 56, LEN = 33, NUMBER_AT = 28 };

/* Two sources, a block of the one-byte form with the elements 3 and 4 of one byte each, a payload of four bytes, and
 * padding of one. */
static const uint8_t packet[LEN] = {0xb2, 0xef, 1, 2, 0,    0,    3, 4, 0,    0, 0,    44, 0, 0, 0, 9, 0,
                                    0,    0,    7, 0xbe, 0xde, 0, 1, 0x30, 8, 0x40, 9,  5, 6, 7, 8, 1};
/* The same with a body of two words, of which padding is one. */
static const uint8_t padded[LEN + 4] = {0xb2, 0xef, 1, 2,    0,    0, 0, 4, 0,    0, 0, 44, 0, 0, 0, 9,    0, 0, 0,
                                        7,    0xbe, 0xde, 0, 2, 0x30, 8, 0, 0, 0, 0, 0x40, 9, 5, 6, 7, 8,    1};
/* With a block of no words, and without P. */
static const uint8_t empty[LEN - 4] = {0x92, 0xef, 1, 2, 0, 0, 3, 4,    0,    0, 0, 44, 0, 0, 0,
                                       9,    0,    0, 0, 7, 0xbe, 0xde, 0, 0, 5, 6, 7, 8, 1};
/* Without a block. */
static const uint8_t plain[LEN - 8] = {0xa2, 0xef, 1, 2, 0, 0, 3, 4, 0, 0, 0, 44, 0, 0, 0, 9, 0, 0, 0, 7, 5, 6, 7, 8, 1};

/* A receiver report on a source, of which RTP would look at more. */
static const uint8_t report[12] = {0x81, 201, 0, 7, 0, 0, 0, 44, 0, 0, 0, 9};

/* Without a payload, though P is set. */
static const uint8_t header[12 + 4] = {0xa1, 0xef, 1, 2, 0, 0, 3, 4, 0, 0, 0, 44, 0, 0, 0, 9};

static uint8_t buf[ROOM];
static size_t len;
static const uint8_t data[] = {1, 2, 3, 4, 5, 6, 7, 8};
static rtpw_new_ids ids;
static rtpw_map map;
static rtpw_fields fields;

static void done(int32_t status) {
    if (status != RTPW_OK) {
        printf("the status is %d\n", (int)status);
        exit(1);
    }
}

static void is_rtcp(void) {
    (void)rtpw_is_rtcp(buf, len);
}
static void packet_parse(void) {
    rtpw_packet it;
    done(rtpw_packet_parse(buf, len, &it));
}
static void read_whole(void) {
    rtpw_whole_packet it;
    done(rtpw_read(buf, len, &map, &it));
}
static void read_rtcp(void) {
    rtpw_whole_packet it;
    done(rtpw_read(buf, len, &map, &it) == RTPW_RTCP ? RTPW_OK : -1);
}
static void parse(void) {
    rtpw_header it;
    done(rtpw_parse(buf, len, &map, &it));
}
static void parse_layers(void) {
    rtpw_header it;
    rtpw_layers layers;
    done(rtpw_parse_layers(buf, len, &map, &it, &layers));
}
static void packet_parse_many(void) {
    rtpw_datagram it;
    it.at = 0;
    it.len = len;
    rtpw_packet_parse_many(buf, sizeof buf, &it, 1);
    done(it.status);
}
static void read_many(void) {
    rtpw_whole_datagram it;
    it.at = 0;
    it.len = len;
    rtpw_read_many(buf, sizeof buf, &map, &it, 1);
}
static void parse_many(void) {
    rtpw_datagram_header it;
    it.at = 0;
    it.len = len;
    rtpw_parse_many(buf, sizeof buf, &map, &it, 1);
    done(it.status);
}
static void make_template(void) {
    rtpw_template made;
    uint8_t room[400];
    done(rtpw_make_template(buf, len, &ids, NULL, 0, NULL, 0, RTPW_ANY_FORM, room, sizeof room, &made));
}
static void set_marker(void) {
    done(rtpw_set_marker(buf, len, false));
}
static void set_payload_type(void) {
    done(rtpw_set_payload_type(buf, len, 1));
}
static void set_sequence_number(void) {
    done(rtpw_set_sequence_number(buf, len, 1));
}
static void set_timestamp(void) {
    done(rtpw_set_timestamp(buf, len, 1));
}
static void set_ssrc(void) {
    done(rtpw_set_ssrc(buf, len, 1));
}
static void set_fields(void) {
    done(rtpw_set_fields(buf, len, &fields));
}
static void set_all_fields(void) {
    static const rtpw_fields all = {1, 2, 3, 4, 1, 1, 1, 1, 1, 1};
    done(rtpw_set_fields(buf, len, &all));
}
static void set_csrc(void) {
    done(rtpw_set_csrc(buf, len, 1, 1));
}
static void set_element(void) {
    done(rtpw_set_element(buf, len, 4, data, 1));
}
static void remove_element(void) {
    done(rtpw_remove_element(buf, len, 3));
}
static void renumber(void) {
    done(rtpw_renumber(buf, len, &ids));
}
static void set_padding(void) {
    done(rtpw_set_padding(buf, len, false));
}
static void remove_padding(void) {
    done(rtpw_remove_padding(buf, len, &len));
}
static void pad(void) {
    size_t count;
    done(rtpw_pad(buf, sizeof buf, len, 3, 1, &count));
    len += count;
}
static void put_in_place(void) {
    done(rtpw_put_element(buf, sizeof buf, &len, 4, data, 1, RTPW_ANY_FORM));
}
static void put_element(void) { /* of the two-byte form: the body is 3 1 8, 4 1 9, 30 2 1 2, and two of padding */
    done(rtpw_put_element(buf, sizeof buf, &len, 30, data, 2, RTPW_ANY_FORM));
}
static void put_first(void) { /* the body is 31 1 2, and one of padding */
    done(rtpw_put_element(buf, sizeof buf, &len, 3, data, 2, RTPW_ONE_BYTE_FORM));
}
static void add_element(void) { /* the body is 30 8, 40 9, 31 1 2, and one of padding */
    done(rtpw_add_element(buf, sizeof buf, &len, 3, data, 2, RTPW_ANY_FORM));
}
static void compact(void) {
    done(rtpw_compact(buf, sizeof buf, &len));
}
static void change_form(void) { /* the body is 3 1 8, 4 1 9, and two of padding */
    done(rtpw_change_form(buf, sizeof buf, &len, RTPW_TWO_BYTE_FORM));
}
static void remove_block(void) {
    done(rtpw_remove_block(buf, sizeof buf, &len));
}
static void put_block(void) {
    done(rtpw_put_block(buf, sizeof buf, &len, 0xabac, data, 8));
}
static void to_retransmission(void) {
    done(rtpw_to_retransmission(buf, sizeof buf, &len, 1, 2, 3, &ids));
}
static void from_retransmission(void) {
    done(rtpw_from_retransmission(buf, sizeof buf, &len, 1, 2, &ids));
}

/* Of each byte a letter: r is read, = stays, . isn't set before and is after, > moves by `shift`, and n by so many
 * that the third byte of the packet becomes the first one of its payload. What lies behind the packet stays. */
#define FIXED "r==========="
#define SOURCES "========"
#define STAY FIXED SOURCES
#define PAYLOAD "====="
#define MOVED ">>>>>"
static const struct {
    const char *name;
    void (*call)(void);
    const uint8_t *packet;
    const char *bytes;
    int shift;
} rows[] = {
#define ROW(call, packet, bytes, shift) \
    { #call " of " #packet, call, packet, bytes, shift }
    ROW(is_rtcp, packet, "rr==========" SOURCES "========" PAYLOAD, 0),
    ROW(packet_parse, packet, "rrrrrrrrrrrr" SOURCES "rrrr====" "====r", 0),
    ROW(packet_parse, empty, "rrrrrrrrrrrr" SOURCES "rrrr" PAYLOAD, 0),
    ROW(packet_parse, plain, "rrrrrrrrrrrr" SOURCES "====r", 0),
    ROW(packet_parse, header, "rrrrrrrrrrrr" "====", 0),
    ROW(packet_parse_many, packet, "rrrrrrrrrrrr" SOURCES "rrrr====" "====r", 0),
    ROW(read_whole, packet, "rrrrrrrrrrrrrrrrrrrrrrrrrrrr" "====r", 0),
    ROW(read_whole, empty, "rrrrrrrrrrrrrrrrrrrrrrrr" PAYLOAD, 0),
    ROW(read_whole, plain, "rrrrrrrrrrrrrrrrrrrr" "====r", 0),
    ROW(read_whole, header, "rrrrrrrrrrrrrrrr", 0),
    ROW(read_rtcp, report, "rr==========", 0),
    ROW(read_many, packet, "rrrrrrrrrrrrrrrrrrrrrrrrrrrr" "====r", 0),
    ROW(parse, packet, "rrrrrrrrrrrrrrrrrrrrrrrrrrrr" PAYLOAD, 0),
    ROW(parse, empty, "rrrrrrrrrrrrrrrrrrrrrrrr" PAYLOAD, 0),
    ROW(parse_layers, packet, "rrrrrrrrrrrrrrrrrrrrrrrrrrrr" PAYLOAD, 0),
    ROW(parse_many, packet, "rrrrrrrrrrrrrrrrrrrrrrrrrrrr" PAYLOAD, 0),
    ROW(make_template, packet, "rrrrrrrrrrrrrrrrrrrrrrrrrrrr" PAYLOAD, 0),
    ROW(set_sequence_number, packet, "r=..========" SOURCES "==rr====" PAYLOAD, 0),
    ROW(set_timestamp, packet, "r===....====" SOURCES "==rr====" PAYLOAD, 0),
    ROW(set_ssrc, packet, "r=======...." SOURCES "==rr====" PAYLOAD, 0),
    ROW(set_all_fields, packet, "r..........." SOURCES "==rr====" PAYLOAD, 0),
    ROW(set_csrc, packet, FIXED "====....==rr====" PAYLOAD, 0),
    ROW(set_csrc, plain, FIXED "====...." PAYLOAD, 0),
    ROW(set_element, packet, STAY "rrrrrrrr" PAYLOAD, 0),
    ROW(remove_element, packet, STAY "rrrrrrrr" PAYLOAD, 0),
    ROW(renumber, packet, STAY "rrrrrrrr" PAYLOAD, 0),
    ROW(renumber, plain, STAY PAYLOAD, 0),
    ROW(set_padding, packet, STAY "==rr====" PAYLOAD, 0),
    ROW(remove_padding, packet, STAY "==rr====" "====r", 0),
    ROW(pad, plain, STAY PAYLOAD, 0),
    ROW(put_in_place, packet, STAY "rrrrrrrr" MOVED, 0),
    ROW(put_element, packet, STAY "rrrrrrrr" MOVED, 8),
    ROW(put_first, empty, STAY "rrrr" MOVED, 4),
    ROW(put_first, plain, STAY MOVED, 8),
    ROW(add_element, packet, STAY "rrrrrrrr" MOVED, 4),
    ROW(compact, padded, STAY "rrrrrrrrrrrr" MOVED, -4),
    ROW(compact, plain, STAY MOVED, 0),
    ROW(change_form, packet, STAY "rrrrrrrr" MOVED, 4),
    ROW(remove_block, packet, STAY "..rr...." MOVED, -8),
    ROW(remove_block, empty, STAY "..rr" MOVED, -4),
    ROW(put_block, packet, STAY "..rr...." MOVED, 4),
    ROW(put_block, plain, STAY MOVED, 12),
    ROW(to_retransmission, packet, "r=nn====...." SOURCES "rrrrrrrr" ">>>>r", 2),
    ROW(from_retransmission, packet, "r=..====...." SOURCES "rrrrrrrr" "rr>>r", -2),
};

/* Where the byte lies afterwards: -1 where it lies nowhere. */
static int lies_at(char letter, int byte, int shift) {
    switch (letter) {
    case '=': return byte;
    case '>': return byte + shift;
    case 'n': return byte - 2 + NUMBER_AT;
    default: return -1;
    }
}

static int tried;
static void fail(const char *name, int byte, int bits, const char *what) {
    printf("%s: the byte %d, bits %d: %s\n", name, byte, bits, what);
    exit(1);
}

/* Where these bits of a byte alone aren't set, the call is told of, or afterwards exactly the byte at the place isn't
 * set, and what lay behind the packet's end. */
static void check(const char *name, void (*call)(void), int byte, uint8_t bits, int reads, int at) {
    size_t i;
    tried++;
    __msan_partial_poison(buf + byte, &bits, 1);
    if (is_told(call) != reads) {
        fail(name, byte, bits, reads ? "it isn't told of it" : "it is told of it");
    }
    for (i = 0; i < ROOM && !reads; i++) {
        int unset = (int)i == at || ((int)i == byte && i >= len);
        if ((__msan_test_shadow(buf + i, 1) == 0) != unset) {
            fail(name, byte, bits, unset ? "it counts as set" : "another byte counts as not set");
        }
    }
    __msan_unpoison(buf, sizeof buf);
}

/* Of the second byte one call writes the first bit, and one the other seven. */
static void bits_of_a_byte(void) {
    static const struct {
        const char *name;
        void (*call)(void);
        uint8_t written, has_payload_type, has_marker;
    } all[] = {{"set_marker", set_marker, 0x80, 0, 0},       {"set_payload_type", set_payload_type, 0x7f, 0, 0},
               {"no fields", set_fields, 0, 0, 0},           {"a marker", set_fields, 0x80, 0, 1},
               {"a payload type", set_fields, 0x7f, 1, 0},   {"both", set_fields, 0xff, 1, 1},
               {"to", to_retransmission, 0x7f, 0, 0},        {"from", from_retransmission, 0x7f, 0, 0}};
    for (size_t i = 0; i < sizeof all / sizeof *all; i++) {
        fields.has_payload_type = all[i].has_payload_type;
        fields.has_marker = all[i].has_marker;
        for (int bit = 0; bit < 8; bit++) {
            uint8_t it = (uint8_t)(1 << bit);
            memcpy(buf, packet, len = LEN);
            check(all[i].name, all[i].call, 1, it, 0, (all[i].written & it) != 0 ? -1 : 1);
        }
    }
}

int main(void) {
    memset(&ids, 5, sizeof ids);
    for (size_t i = 0; i < sizeof rows / sizeof *rows; i++) {
        const char *letters = rows[i].bytes;
        for (int byte = 0; letters[byte] != 0; byte++) {
            memcpy(buf, rows[i].packet, len = strlen(letters));
            check(rows[i].name, rows[i].call, byte, 0xff, letters[byte] == 'r',
                  lies_at(letters[byte], byte, rows[i].shift));
        }
    }
    bits_of_a_byte();
    printf("%d bytes\n", tried);
    return 0;
}
