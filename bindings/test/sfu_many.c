/*
 * The core of the SFU (bindings/examples/sfu.c) with many datagrams at once, and many receivers in groups. Expected
 * values are worked out by hand from RFC 3550, 5.1 and A.1, and RFC 8285, 4.2 and 4.3.
 */
#include "../examples/sfu.h"

#include <stdio.h>
#include <string.h>

#define CHECK(what) \
    do { \
        if (!(what)) { \
            printf("sfu_many.c:%d: %s\n", __LINE__, #what); \
            return 1; \
        } \
    } while (0)

/* So many receivers and datagrams at once, and so many bytes of a header that is sent on. */
enum { RECEIVERS = 8, DATAGRAMS = 32, HEADER = 2048 };

static sfu it;
static sfu_output out;
static uint8_t buf[DATAGRAMS * 4096];
static rtpw_datagram datagrams[DATAGRAMS];
static size_t count;

static void begin(void) {
    memset(&it, 0, sizeof it);
    count = 0;
}

/* Lays a datagram into the buffer, each at 4,096 bytes of its own. */
static uint8_t *lay(const void *bytes, size_t len) {
    datagrams[count].at = 4096 * count;
    datagrams[count].len = len;
    return memcpy(buf + 4096 * count++, bytes, len);
}

/* Lays a packet without a block, of this number and SSRC, with a byte of payload. */
static void lay_plain(uint16_t number, uint8_t ssrc) {
    const uint8_t bytes[] = {0x80, 0x6F, (uint8_t)(number >> 8), (uint8_t)number, 0, 0, 0, 1, 0, 0,
                             0,    ssrc, (uint8_t)number};
    lay(bytes, sizeof bytes);
}

/* Takes what was laid into the buffer. */
static void receive(void) {
    sfu_receive(&it, buf, sizeof buf, datagrams, count, 0, &out);
    count = 0;
}

/* Whether this packet goes out, to this receiver: this header, and a payload as it lies in the datagram. */
static bool goes(size_t at, size_t receiver, const char *header, size_t header_len, size_t datagram, size_t payload_at,
                 size_t payload_len) {
    const sfu_packet *packet = &out.packets[at];
    return at < out.count && packet->receiver == receiver && packet->header_len == header_len &&
           memcmp(packet->header, header, header_len) == 0 && packet->payload == buf + 4096 * datagram + payload_at &&
           packet->payload_len == payload_len;
}

static bool counted(unsigned long taken, unsigned long replays, unsigned long late, unsigned long rtcp,
                    unsigned long unreadable, unsigned long strangers, unsigned long sent, unsigned long unsent) {
    const sfu_counts *counts = &it.counts;
    return counts->taken == taken && counts->replays == replays && counts->late == late && counts->rtcp == rtcp &&
           counts->unreadable == unreadable && counts->strangers == strangers && counts->sent == sent &&
           counts->unsent == unsent;
}

static sfu_peer peer_of(const char *mid, uint8_t mid_id, uint8_t number_id, uint8_t level_id, uint32_t first_ssrc,
                        uint16_t number_offset) {
    sfu_peer peer = {{{0}}, mid, first_ssrc, number_offset};
    peer.map.kind[mid_id] = RTPW_KIND_MID;
    peer.map.kind[number_id] = RTPW_KIND_TRANSPORT_NUMBER;
    peer.map.kind[level_id] = RTPW_KIND_AUDIO_LEVEL;
    return peer;
}

static const rtpw_map LEVEL_IS_3 = {{[3] = RTPW_KIND_AUDIO_LEVEL}}, NOTHING = {{0}};

/* Five receivers in three groups, added in turn: the first, the third and the fifth have the same ids and mids of one
 * length; the second has another id of the level; the fourth a longer mid. */
static int groups(void) {
    static const uint8_t packet[] = {0x90, 0x6F, 0, 5, 0, 0, 0, 1, 0, 0, 0, 9, 0xBE, 0xDE, 0, 1, 0x30, 0x8A, 0, 0, 'p'};
    const sfu_peer peers[] = {peer_of("a", 2, 5, 9, 1000, 0), peer_of("b", 2, 5, 8, 2000, 1),
                              peer_of("c", 2, 5, 9, 3000, 2), peer_of("dd", 2, 5, 9, 4000, 3),
                              peer_of("e", 2, 5, 9, 5000, 4)};
    begin();
    for (size_t i = 0; i < 5; i++) {
        CHECK(sfu_add(&it, &LEVEL_IS_3, &peers[i]));
    }
    CHECK(it.route_count == 5 && it.group_count == 3);
    /* Each counts its own packets: the next one of the third receiver is the last of 16 bits. */
    it.routes[2].transport_number = 0xFFFF;
    lay(packet, sizeof packet);
    lay(packet, sizeof packet)[3] = 6;
    receive();
    CHECK(out.count == 10 && counted(2, 0, 0, 0, 0, 0, 10, 0));
#define OF(number, ssrc, level, mid, transport) \
    "\x90\x6F\0" number "\0\0\0\1\0\0" ssrc "\xBE\xDE\0\2" level "\x8A\x21" mid "0\x51" transport
#define LONGER(number, transport) \
    "\x90\x6F\0" number "\0\0\0\1\0\0\x0F\xA0\xBE\xDE\0\3\x90\x8A\x22" \
    "dd0\x51" transport "\0\0\0"
    static const struct {
        size_t receiver;
        const char *header;
    } expected[] = {
        {0, OF("\5", "\x03\xE8", "\x90", "a", "\0\0")},
        {2, OF("\7", "\x0B\xB8", "\x90", "c", "\xFF\xFF")},
        {4, OF("\x09", "\x13\x88", "\x90", "e", "\0\0")},
        {1, OF("\6", "\x07\xD0", "\x80", "b", "\0\0")},
        {3, LONGER("\x08", "\0\0")},
        {0, OF("\6", "\x03\xE8", "\x90", "a", "\0\1")},
        {2, OF("\x08", "\x0B\xB8", "\x90", "c", "\0\0")},
        {4, OF("\x0A", "\x13\x88", "\x90", "e", "\0\1")},
        {1, OF("\7", "\x07\xD0", "\x80", "b", "\0\1")},
        {3, LONGER("\x09", "\0\1")},
    };
    for (size_t i = 0; i < 10; i++) {
        CHECK(goes(i, expected[i].receiver, expected[i].header, i % 5 == 4 ? 28 : 24, i / 5, 20, 1));
    }
    return 0;
}

/* What makes a group of its own: another new id, another element that is put, or none, and a form that may have to be
 * the two-byte one. What doesn't: SSRC, offset, and mids that no packet gets. */
static int terms(void) {
    sfu_peer peer = peer_of("a", 2, 5, 9, 1000, 0);
    begin();
    CHECK(sfu_add(&it, &LEVEL_IS_3, &peer) && it.group_count == 1);
    peer.map.kind[9] = RTPW_KIND_NONE;
    CHECK(sfu_add(&it, &LEVEL_IS_3, &peer) && it.group_count == 2);
    peer.map.kind[5] = RTPW_KIND_NONE;
    CHECK(sfu_add(&it, &LEVEL_IS_3, &peer) && it.group_count == 3);
    peer.map.kind[6] = RTPW_KIND_ABS_SEND_TIME;
    CHECK(sfu_add(&it, &LEVEL_IS_3, &peer) && it.group_count == 4);
    peer.map.kind[15] = RTPW_KIND_RID;
    CHECK(sfu_add(&it, &LEVEL_IS_3, &peer) && it.group_count == 5);
    peer.map.kind[2] = RTPW_KIND_NONE, peer.first_ssrc = 7, peer.number_offset = 8;
    CHECK(sfu_add(&it, &LEVEL_IS_3, &peer) && it.group_count == 6);
    peer.mid = "another", peer.first_ssrc = 9, peer.number_offset = 10;
    CHECK(sfu_add(&it, &LEVEL_IS_3, &peer) && it.group_count == 6 && it.groups[5].receiver_count == 2);
    return 0;
}

/* Each datagram is told by itself, in its order: one that lies in another, one that reaches past the buffer, what is
 * no packet, RTCP, and a replay stop nothing behind them. */
static int each_by_itself(void) {
    static const uint8_t report[] = {0x80, 200, 0, 1, 0, 0, 0, 9}, short_one[] = {0x80, 0x6F, 0, 7};
    const sfu_peer peer = peer_of("m", 2, 5, 9, 1000, 0);
    begin();
    CHECK(sfu_add(&it, &NOTHING, &peer));
    lay(short_one, sizeof short_one);
    lay_plain(1, 9);
    lay(report, sizeof report);
    lay_plain(1, 9);
    lay_plain(2, 9);
    lay_plain(2, 9);
    datagrams[5].at = (size_t)-1; /* the end is 12 in 64 bits */
    lay_plain(1, 8);
    datagrams[7] = (rtpw_datagram){.at = 6 * 4096, .len = 12}; /* the same again, without its payload */
    datagrams[8] = (rtpw_datagram){.at = sizeof buf - 11, .len = 12};
    count = 9;
    lay_plain(3, 8);
    receive();
    CHECK(counted(4, 2, 0, 1, 3, 0, 4, 0) && out.count == 4);
#define PLAIN(number, ssrc, mid, transport) \
    "\x90\x6F\0" number "\0\0\0\1\0\0\x03" ssrc "\xBE\xDE\0\2\x21m" mid "\x51\0" transport "\0\0"
    CHECK(goes(0, 0, PLAIN("\1", "\xE8", "0", "\0"), 24, 1, 12, 1));
    CHECK(goes(1, 0, PLAIN("\2", "\xE8", "0", "\1"), 24, 4, 12, 1));
    CHECK(goes(2, 0, PLAIN("\1", "\xE9", "1", "\2"), 24, 6, 12, 1));
    CHECK(goes(3, 0, PLAIN("\3", "\xE9", "1", "\3"), 24, 9, 12, 1));
    /* Nothing that came before stays behind. */
    receive();
    CHECK(out.count == 0 && counted(4, 2, 0, 1, 3, 0, 4, 0));
    lay_plain(4, 8);
    receive();
    CHECK(out.count == 1 && goes(0, 0, PLAIN("\4", "\xE9", "1", "\4"), 24, 0, 12, 1));
    return 0;
}

/* A replay is told from what is too late by the numbers before it: 127 below the highest one is in the window, and 128
 * isn't. The streams are apart. */
static int in_turn(void) {
    static const uint16_t numbers[] = {205, 78, 78, 206, 78, 79, 79, 207, 79, 80, 334, 206, 207, 207};
    const sfu_peer peer = peer_of("m", 2, 5, 9, 1000, 0);
    for (int one_by_one = 0; one_by_one < 2; one_by_one++) {
        begin();
        CHECK(sfu_add(&it, &NOTHING, &peer));
        for (size_t i = 0; i < 28; i++) {
            lay_plain(i % 2 == 0 ? numbers[i / 2] : (uint16_t)(65535 - i), i % 2 == 0 ? 9 : 8);
            if (one_by_one) {
                receive();
            }
        }
        receive();
        /* taken 205, 78, 206, 79, 207, 80 and 334; replays 78, 79 and 207 twice; late 78, 79 and 206 */
        CHECK(counted(7 + 14, 4, 3, 0, 0, 0, 21, 0));
    }
    return 0;
}

/* One source more than there is room for: its packets are strangers', and those of the others go on. */
static int strangers(void) {
    const sfu_peer peer = peer_of("m", 2, 5, 9, 1000, 0);
    begin();
    CHECK(sfu_add(&it, &NOTHING, &peer));
    for (uint8_t i = 0; i < 17; i++) {
        lay_plain(1, i);
    }
    lay_plain(2, 15), lay_plain(2, 16);
    receive();
    CHECK(counted(17, 0, 0, 0, 0, 2, 17, 0) && goes(16, 0, PLAIN("\2", "\xF7", "F", "\x10"), 24, 17, 12, 1));
    return 0;
}

/* Elements of a block of 2,032 bytes, in the two-byte form: all of the header is full. */
static size_t full_header(uint8_t *bytes, uint8_t number) {
    static const uint8_t fixed[] = {0x90, 0x6F, 0, 0, 0, 0, 0, 1, 0, 0, 0, 9, 0x10, 0, 1, 0xFC};
    memset(bytes, number, HEADER);
    memcpy(bytes, fixed, sizeof fixed);
    bytes[3] = number;
    for (size_t at = sizeof fixed, i = 0; at < HEADER; at += 2u + bytes[at + 1], i++) {
        bytes[at] = 3;
        bytes[at + 1] = i < 7 ? 255 : 231;
    }
    return HEADER;
}

/* As many datagrams, receivers and bytes of headers as there can be at once; and a header that is four bytes longer, in
 * either form, goes nowhere, but the others do. */
static int full(void) {
    static uint8_t bytes[HEADER + 4], expected[HEADER];
    sfu_peer peer = {{{0}}, "", 0, 0};
    peer.map.kind[4] = RTPW_KIND_AUDIO_LEVEL;
    begin();
    for (size_t i = 0; i < RECEIVERS; i++) {
        peer.first_ssrc = (uint32_t)(i << 24);
        peer.number_offset = (uint16_t)(i << 8);
        peer.map.kind[20] = i % 2 == 0 ? RTPW_KIND_NONE : RTPW_KIND_RID; /* half of them are wide */
        CHECK(sfu_add(&it, &LEVEL_IS_3, &peer));
    }
    CHECK(it.group_count == 2);
    for (size_t i = 0; i < DATAGRAMS; i++) {
        lay(bytes, full_header(bytes, (uint8_t)(i + 100)));
    }
    receive();
    CHECK(out.count == RECEIVERS * DATAGRAMS && counted(DATAGRAMS, 0, 0, 0, 0, 0, RECEIVERS * DATAGRAMS, 0));
    for (size_t i = 0; i < out.count; i++) {
        size_t receiver = i % 8 < 4 ? i % 8 * 2 : i % 8 * 2 - 7;
        full_header(expected, (uint8_t)(i / 8 + 100));
        expected[2] = expected[8] = (uint8_t)receiver;
        expected[11] = 0;
        for (size_t at = 16; at < HEADER; at += 2u + expected[at + 1]) {
            expected[at] = 4;
        }
        CHECK(goes(i, receiver, (const char *)expected, HEADER, i / 8, HEADER, 0));
    }
    memset(bytes, 0, sizeof bytes);
    memcpy(bytes, "\x90\x6F\0\xF0\0\0\0\1\0\0\0\x09\xBE\xDE\1\xFD", 16);
    lay(bytes, sizeof bytes)[3] = 0xF1;
    memcpy(bytes, "\x90\x6F\0\xF2\0\0\0\1\0\0\0\x09\x10\0\1\xFD", 16);
    lay(bytes, sizeof bytes);
    lay_plain(0xF3, 9);
    receive();
    CHECK(out.count == RECEIVERS && counted(DATAGRAMS + 3, 0, 0, 0, 0, 0, RECEIVERS * (DATAGRAMS + 1), 2 * RECEIVERS));
    CHECK(goes(1, 2, "\x80\x6F\2\xF3\0\0\0\1\2\0\0\0", 12, 2, 12, 1));
    return 0;
}

/* A group that can't be served spoils no other: a block that is full up to four bytes has room for a transport number,
 * and not for a mid of three bytes. */
static int unserved(void) {
    static uint8_t bytes[HEADER];
    sfu_peer peers[3] = {{{{0}}, "", 1000, 0}, {{{0}}, "mm", 2000, 0}, {{{0}}, "", 3000, 0}};
    begin();
    for (size_t i = 0; i < 3; i++) {
        peers[i].map.kind[4] = RTPW_KIND_AUDIO_LEVEL;
        peers[i].map.kind[i == 1 ? 2 : 5] = i == 1 ? RTPW_KIND_MID : RTPW_KIND_TRANSPORT_NUMBER;
        CHECK(sfu_add(&it, &LEVEL_IS_3, &peers[i]));
    }
    CHECK(it.group_count == 2);
    full_header(bytes, 1);
    bytes[HEADER - 233 + 1] = 227; /* the last element is four bytes shorter */
    memset(bytes + HEADER - 4, 0, 4);
    lay(bytes, HEADER);
    lay_plain(2, 9);
    receive();
    CHECK(counted(2, 0, 0, 0, 0, 0, 5, 1) && out.count == 5);
    CHECK(out.packets[0].receiver == 0 && out.packets[1].receiver == 2 && out.packets[1].header_len == HEADER);
    CHECK(memcmp(out.packets[1].header + HEADER - 4, "\5\2\0\0", 4) == 0);
    CHECK(goes(2, 0, "\x90\x6F\0\2\0\0\0\1\0\0\x03\xE8\xBE\xDE\0\1\x51\0\1\0", 20, 1, 12, 1));
    CHECK(goes(4, 1, "\x90\x6F\0\2\0\0\0\1\0\0\x07\xD0\xBE\xDE\0\1\x22mm0", 20, 1, 12, 1));
    return 0;
}

int main(void) {
    return groups() || terms() || each_by_itself() || in_turn() || strangers() || full() || unserved();
}
