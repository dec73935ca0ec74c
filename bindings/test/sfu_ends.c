/*
 * The core of the SFU (bindings/examples/sfu.c) at the ends of what it has room for: receivers, streams, mids, ids of
 * both forms, and times. Expected values are worked out by hand from RFC 3550, 5.1 and RFC 8285, 4.2 and 4.3.
 */
#include "../examples/sfu.h"

#include <stdio.h>
#include <string.h>

#define CHECK(what)                                                                                                    \
    do {                                                                                                               \
        if (!(what)) {                                                                                                 \
            printf("sfu_ends.c:%d: %s\n", __LINE__, #what);                                                            \
            return 1;                                                                                                  \
        }                                                                                                              \
    } while (0)

/* So many receivers and streams at most, and so many bytes of a header that is sent on. */
enum { RECEIVERS = 8, STREAMS = 16, HEADER = 2048 };

typedef struct {
    size_t count, receiver, header_len, payload_len;
    uint8_t header[HEADER];
    const uint8_t *payload;
} sent;

/* Takes one datagram, and adds what goes out; the last packet is kept. */
static void take(sfu *sfu, const uint8_t *bytes, size_t len, uint64_t microseconds, sent *last) {
    static sfu_output out;
    rtpw_datagram datagram = {.len = len};
    sfu_receive(sfu, bytes, len, &datagram, 1, microseconds, &out);
    for (size_t i = 0; i < out.count; i++) {
        const sfu_packet *it = &out.packets[i];
        last->count++;
        last->receiver = it->receiver;
        memcpy(last->header, it->header, it->header_len);
        last->header_len = it->header_len;
        last->payload = it->payload;
        last->payload_len = it->payload_len;
    }
}

static const char LONGEST[] = "0123456789abcdef0123456789ABCDE";
static const rtpw_map NOTHING = {{0}};

/* What the receiver of this id and mid gets of a packet without a block, of the stream 0, behind the fixed part. */
static sent sent_to(uint8_t id, uint8_t kind, const char *mid, uint64_t microseconds) {
    static const uint8_t packet[] = {0x80, 0x6F, 0xFF, 0xFF, 0, 0, 0, 1, 0, 0, 0, 0x2C, 1, 2, 3};
    static sfu sfu;
    sent last = {0};
    memset(&sfu, 0, sizeof sfu);
    sfu_peer peer = {{{0}}, mid, 0xFFFFFFFF, 2};
    peer.map.kind[id] = kind;
    if (sfu_add(&sfu, &NOTHING, &peer)) {
        take(&sfu, packet, sizeof packet, microseconds, &last);
    }
    static const uint8_t fixed[] = {0x90, 0x6F, 0, 1, 0, 0, 0, 1, 0xFF, 0xFF, 0xFF, 0xFF};
    if (last.count != 1 || last.payload != packet + 12 || last.payload_len != 3 || memcmp(last.header, fixed, 12) != 0) {
        last.header_len = 0;
    }
    return last;
}

static bool is(const sent *last, const char *block, size_t len) {
    return last->header_len == 12 + len && memcmp(last->header + 12, block, len) == 0;
}

/* Ids up to 14 and mids up to 16 characters, the stream's digit among them, are those of the one-byte form. */
static int forms(void) {
    sent it = sent_to(14, RTPW_KIND_MID, "m", 0);
    CHECK(is(&it, "\xBE\xDE\0\1\xE1m0\0", 8));
    it = sent_to(15, RTPW_KIND_MID, "m", 0);
    CHECK(is(&it, "\x10\0\0\1\x0F\2m0", 8));
    it = sent_to(255, RTPW_KIND_MID, "m", 0);
    CHECK(is(&it, "\x10\0\0\1\xFF\2m0", 8));
    it = sent_to(1, RTPW_KIND_MID, LONGEST + 16, 0);
    CHECK(is(&it, "\xBE\xDE\0\5\x1F" "0123456789ABCDE0\0\0\0", 24));
    it = sent_to(1, RTPW_KIND_MID, LONGEST + 15, 0);
    CHECK(is(&it, "\x10\0\0\5\1\x11" "f0123456789ABCDE0\0", 24));
    it = sent_to(1, RTPW_KIND_MID, LONGEST, 0);
    CHECK(is(&it, "\x10\0\0\x09\1\x20" "0123456789abcdef0123456789ABCDE0\0\0", 40));
    /* The mid of a receiver that has no id for it is as good as none. */
    it = sent_to(1, RTPW_KIND_TRANSPORT_NUMBER, LONGEST, 0);
    CHECK(is(&it, "\xBE\xDE\0\1\x11\0\0\0", 8));
    return 0;
}

/* 63.99 s are 16,774,594.56 units of 2^-18 s, and 64.02 s are 5,242.88 of them, modulo 64 s. */
static int times(void) {
    sent it = sent_to(3, RTPW_KIND_ABS_SEND_TIME, "", 63990000);
    CHECK(is(&it, "\xBE\xDE\0\1\x32\xFF\xF5\xC2", 8));
    it = sent_to(3, RTPW_KIND_ABS_SEND_TIME, "", 64020000);
    CHECK(is(&it, "\xBE\xDE\0\1\x32\0\x14\x7A", 8));
    it = sent_to(3, RTPW_KIND_ABS_SEND_TIME, "", 6400000000u * 1000 + 64020000);
    CHECK(is(&it, "\xBE\xDE\0\1\x32\0\x14\x7A", 8));
    /* Of a clock of today, which has counted 26,562,500 * 64 s; and of the last moment that there is: 2^64 - 1 are
     * 288,230,376,151 * 64,000,000 and 45,551,615, which are 11,941,082.56 units. */
    it = sent_to(3, RTPW_KIND_ABS_SEND_TIME, "", 1700000000000000u + 63990000);
    CHECK(is(&it, "\xBE\xDE\0\1\x32\xFF\xF5\xC2", 8));
    it = sent_to(3, RTPW_KIND_ABS_SEND_TIME, "", UINT64_MAX);
    CHECK(is(&it, "\xBE\xDE\0\1\x32\xB6\x34\xDA", 8));
    /* A unit is 3.8 microseconds. */
    it = sent_to(3, RTPW_KIND_ABS_SEND_TIME, "", 3);
    CHECK(is(&it, "\xBE\xDE\0\1\x32\0\0\0", 8));
    it = sent_to(3, RTPW_KIND_ABS_SEND_TIME, "", 4);
    CHECK(is(&it, "\xBE\xDE\0\1\x32\0\0\1", 8));
    it = sent_to(3, RTPW_KIND_ABS_SEND_TIME, "", 63999999);
    CHECK(is(&it, "\xBE\xDE\0\1\x32\xFF\xFF\xFF", 8));
    it = sent_to(3, RTPW_KIND_ABS_SEND_TIME, "", 64000000);
    CHECK(is(&it, "\xBE\xDE\0\1\x32\0\0\0", 8));
    return 0;
}

/* A one-byte block becomes a two-byte one, whatever ids the sender has, and gets no longer than it must. */
static int one_byte(void) {
    static const uint8_t packet[] = {0x90, 0, 0, 5, 0, 0, 0, 1, 0, 0, 0, 0x2C, 0xBE, 0xDE, 0, 1, 0x10, 0x8A, 0, 0};
    for (int last = 15; last <= 255; last++) {
        static sfu sfu;
        sent it = {0};
        memset(&sfu, 0, sizeof sfu);
        rtpw_map sender = {{0}};
        sfu_peer peer = {{{0}}, "", 0, 0};
        for (int id = last; id <= 255; id++) {
            sender.kind[id] = RTPW_KIND_AUDIO_LEVEL;
        }
        sender.kind[1] = peer.map.kind[20] = RTPW_KIND_AUDIO_LEVEL;
        CHECK(sfu_add(&sfu, &sender, &peer));
        take(&sfu, packet, sizeof packet, 0, &it);
        CHECK(is(&it, "\x10\0\0\1\x14\1\x8A\0", 8));
    }
    return 0;
}

/* A block that is a two-byte one stays as long as it is. */
static int two_byte(void) {
    static const uint8_t packet[] = {0x90, 0, 0, 5, 0, 0, 0, 1, 0, 0, 0, 0x2C, 0x10, 0, 0, 1, 1, 1, 0x8A, 0};
    static sfu sfu;
    rtpw_map sender = {{0}};
    sfu_peer peer = {{{0}}, "", 0, 0};
    sent it = {0};
    sender.kind[1] = peer.map.kind[20] = RTPW_KIND_AUDIO_LEVEL;
    CHECK(sfu_add(&sfu, &sender, &peer));
    take(&sfu, packet, sizeof packet, 0, &it);
    CHECK(is(&it, "\x10\0\0\1\x14\1\x8A\0", 8));
    /* Without a block, and without an element for it, a packet gets none. */
    static const uint8_t plain[] = {0x80, 0, 0, 6, 0, 0, 0, 1, 0, 0, 0, 0x2C, 9};
    take(&sfu, plain, sizeof plain, 0, &it);
    CHECK(it.count == 2 && it.header_len == 12 && it.header[0] == 0x80 && it.payload == plain + 12);
    return 0;
}

/* A long mid of a receiver that has no id for mids changes no form: the block stays a one-byte one. */
static int long_mid_without_an_id(void) {
    static const uint8_t packet[] = {0x90, 0, 0, 5, 0, 0, 0, 1, 0, 0, 0, 0x2C, 0xBE, 0xDE, 0, 1, 0x10, 0x8A, 0, 0};
    static sfu sfu;
    rtpw_map sender = {{0}};
    sfu_peer peer = {{{0}}, LONGEST, 0, 0};
    sent it = {0};
    sender.kind[1] = peer.map.kind[14] = RTPW_KIND_AUDIO_LEVEL;
    CHECK(sfu_add(&sfu, &sender, &peer));
    take(&sfu, packet, sizeof packet, 0, &it);
    CHECK(is(&it, "\xBE\xDE\0\1\xE0\x8A\0\0", 8));
    return 0;
}

static int room(void) {
    static sfu sfu;
    sfu_peer peer = {{{0}}, "0123456789abcdef0123456789ABCDEF", 1000, 0};
    CHECK(!sfu_add(&sfu, &NOTHING, &peer) && sfu.route_count == 0);
    peer.mid = LONGEST;
    peer.map.kind[2] = RTPW_KIND_MID;
    for (int i = 0; i < RECEIVERS; i++) {
        CHECK(sfu_add(&sfu, &NOTHING, &peer));
    }
    CHECK(!sfu_add(&sfu, &NOTHING, &peer) && sfu.route_count == RECEIVERS);
    sent last = {0};
    uint8_t packet[12] = {0x80, 0, 0, 5};
    for (uint8_t stream = 0; stream <= STREAMS; stream++) {
        packet[11] = stream;
        take(&sfu, packet, sizeof packet, 0, &last);
        bool is_known = stream < STREAMS;
        CHECK(last.count == RECEIVERS * (is_known ? stream + 1u : STREAMS));
        CHECK(last.receiver == RECEIVERS - 1 && last.payload_len == 0);
        /* 1,000 and the stream's number, and the mid ends in this, a hexadecimal digit. */
        CHECK(!is_known || (last.header[10] == (1000 + stream) >> 8 && last.header[11] == ((1000 + stream) & 0xFF)));
        CHECK(!is_known || last.header[12 + 4 + 2 + 31] == (uint8_t)"0123456789ABCDEF"[stream]);
    }
    CHECK(sfu.counts.strangers == 1 && sfu.counts.taken == STREAMS && sfu.counts.unsent == 0);
    CHECK(sfu.counts.sent == STREAMS * RECEIVERS);
    /* Each receiver counts its own packets, over all streams. */
    peer.map.kind[3] = RTPW_KIND_TRANSPORT_NUMBER;
    memset(&sfu, 0, sizeof sfu);
    CHECK(sfu_add(&sfu, &NOTHING, &peer) && sfu_add(&sfu, &NOTHING, &peer));
    for (int i = 0; i < 600; i++) {
        packet[2] = (uint8_t)(i / 2 >> 8), packet[3] = (uint8_t)(i / 2), packet[11] = (uint8_t)(i % 2);
        take(&sfu, packet, sizeof packet, 0, &last);
    }
    CHECK(last.count == RECEIVERS * STREAMS + 1200 && last.header_len == 12 + 4 + 40);
    CHECK(memcmp(last.header + 12 + 4 + 34, "\3\2\2\x57", 4) == 0); /* 599 */
    return 0;
}

/* Two SFUs, of which the other one takes a datagram before what the first one sends goes out, as in another thread. All
 * that an SFU knows is in itself, and all that goes out where it was told to. */
static int apart(void) {
    static const uint8_t packet[] = {0x90, 1,    0, 5, 0,    0,    0, 1, 0, 0, 0, 0x2C,
                                     0xBE, 0xDE, 0, 1, 0x10, 0x8A, 0, 0, 1, 2, 3};
    static const uint8_t plain[] = {0x80, 2, 0, 0, 0, 0, 0, 2, 0, 0, 0, 7, 'o', 't', 'h', 'e', 'r'};
    static sfu first, other;
    static sfu_output out, others;
    sfu_peer peer = {{{0}}, "m", 1000, 0};
    rtpw_map sender = {{0}};
    rtpw_datagram datagram = {.len = sizeof packet};
    sender.kind[1] = peer.map.kind[2] = RTPW_KIND_AUDIO_LEVEL;
    peer.map.kind[3] = RTPW_KIND_MID;
    for (int i = 0; i < 3; i++) {
        CHECK(sfu_add(&first, &sender, &peer));
    }
    CHECK(sfu_add(&other, &NOTHING, &peer));
    sfu_receive(&first, packet, sizeof packet, &datagram, 1, 0, &out);
    datagram.len = sizeof plain;
    sfu_receive(&other, plain, sizeof plain, &datagram, 1, 1, &others);
    CHECK(out.count == 3 && others.count == 1);
    for (size_t i = 0; i < 3; i++) {
        const sfu_packet *it = &out.packets[i];
        CHECK(it->receiver == i && it->header_len == 24 && it->payload == packet + 20 && it->payload_len == 3);
        CHECK(memcmp(it->header, "\x90\1\0\5\0\0\0\1\0\0\x03\xE8\xBE\xDE\0\2\x20\x8A\x31m0\0\0\0", 24) == 0);
    }
    CHECK(others.packets[0].header_len == 20 && others.packets[0].payload == plain + 12);
    CHECK(memcmp(others.packets[0].header, "\x90\2\0\0\0\0\0\2\0\0\x03\xE8\xBE\xDE\0\1\x31m0\0", 20) == 0);
    CHECK(first.counts.taken == 1 && first.counts.sent == 3 && other.counts.taken == 1 && other.counts.sent == 1);
    return 0;
}

/* A block of another form stays, and uses up no number of the transport; nor does what isn't sent on at all. */
static int numbers(void) {
    static sfu sfu;
    uint8_t camera[] = {0x90, 0, 0, 5, 0, 0, 0, 1, 0, 0, 0, 0x2C, 0xAB, 0xAC, 0, 1, 1, 2, 3, 4, 9};
    uint8_t plain[] = {0x80, 0, 0, 6, 0, 0, 0, 1, 0, 0, 0, 0x2C};
    sfu_peer peer = {{{0}}, "", 0xFFFFFFFE, 65535};
    sent it = {0};
    peer.map.kind[3] = RTPW_KIND_TRANSPORT_NUMBER;
    CHECK(sfu_add(&sfu, &NOTHING, &peer));
    take(&sfu, camera, sizeof camera, 0, &it);
    CHECK(it.count == 1 && it.header_len == 20 && it.payload == camera + 20 && it.payload_len == 1);
    CHECK(memcmp(it.header, "\x90\0\0\4\0\0\0\1\xFF\xFF\xFF\xFE\xAB\xAC\0\1\1\2\3\4", 20) == 0);
    take(&sfu, camera, sizeof camera, 0, &it); /* a replay */
    take(&sfu, camera, 15, 0, &it);            /* no packet */
    camera[1] = 200, camera[3] = 7;
    take(&sfu, camera, sizeof camera, 0, &it); /* RTCP */
    CHECK(it.count == 1);
    take(&sfu, plain, sizeof plain, 0, &it);
    CHECK(it.count == 2 && is(&it, "\xBE\xDE\0\1\x31\0\0\0", 8));
    plain[3] = 7;
    take(&sfu, plain, sizeof plain, 0, &it);
    CHECK(it.count == 3 && is(&it, "\xBE\xDE\0\1\x31\0\1\0", 8));
    CHECK(sfu.stream_count == 1 && sfu.counts.taken == 3 && sfu.counts.replays == 1 && sfu.counts.late == 0);
    CHECK(sfu.counts.unreadable == 1 && sfu.counts.rtcp == 1 && sfu.counts.strangers == 0);
    return 0;
}

/* Twenty-two numbers for each 65,536, up to one past 2^32: the same again is a replay, and 128 below it is too late. */
static int past_32_bits(void) {
    static sfu sfu;
    uint8_t plain[] = {0x80, 0, 0, 0, 0, 0, 0, 1, 0x12, 0x34, 0x56, 0x78};
    for (unsigned long i = 0; i <= 22 * 65536; i++) {
        unsigned number = i % 22 * 2979;
        plain[2] = (uint8_t)(number >> 8), plain[3] = (uint8_t)number;
        take(&sfu, plain, sizeof plain, 0, NULL);
    }
    CHECK(sfu.counts.taken == 22 * 65536 + 1 && sfu.counts.replays == 0 && sfu.counts.late == 0);
    take(&sfu, plain, sizeof plain, 0, NULL);
    plain[2] = 0xFF, plain[3] = 0xFF; /* one below it */
    take(&sfu, plain, sizeof plain, 0, NULL);
    take(&sfu, plain, sizeof plain, 0, NULL);
    plain[3] = 0x80; /* 128 below it */
    take(&sfu, plain, sizeof plain, 0, NULL);
    CHECK(sfu.counts.taken == 22 * 65536 + 2 && sfu.counts.replays == 2 && sfu.counts.late == 1);
    CHECK(sfu.counts.sent == 0 && sfu.counts.unsent == 0 && sfu.stream_count == 1);
    return 0;
}

/* A sender that starts again far away: its second packet there is taken, and what is of the old numbers then isn't, but
 * two in a row are. */
static int starts_again(void) {
    static const struct {
        uint16_t number;
        unsigned long taken, replays, late; /* until then */
    } ROWS[] = {{100, 1, 0, 0},   {101, 2, 0, 0},   {40000, 2, 0, 1}, {40001, 3, 0, 1}, {40001, 3, 1, 1},
                {40002, 4, 1, 1}, {102, 4, 1, 2},   {40003, 5, 1, 2}, {40000, 6, 1, 2}, {103, 6, 1, 3},
                {105, 6, 1, 4},   {106, 7, 1, 4},   {40004, 7, 1, 5}, {107, 8, 1, 5}};
    static sfu sfu;
    uint8_t plain[] = {0x80, 0, 0, 0, 0, 0, 0, 1, 0x12, 0x34, 0x56, 0x78};
    for (size_t i = 0; i < sizeof ROWS / sizeof *ROWS; i++) {
        plain[2] = (uint8_t)(ROWS[i].number >> 8), plain[3] = (uint8_t)ROWS[i].number;
        take(&sfu, plain, sizeof plain, 0, NULL);
        CHECK(sfu.counts.taken == ROWS[i].taken && sfu.counts.replays == ROWS[i].replays);
        CHECK(sfu.counts.late == ROWS[i].late);
    }
    return 0;
}

/* Padding doesn't go on: P is clear, and the payload is shorter. One that counts more bytes than there are is malformed,
 * and a packet of padding alone goes on without a payload. */
static int padding(void) {
    static sfu sfu;
    uint8_t padded[] = {0xA0, 0, 0, 4, 0, 0, 0, 1, 0x12, 0x34, 0x56, 0x78, 'h', 'i', 0, 2};
    const sfu_peer peer = {{{0}}, "", 9, 0};
    sent it = {0};
    CHECK(sfu_add(&sfu, &NOTHING, &peer));
    take(&sfu, padded, sizeof padded, 0, &it);
    CHECK(it.count == 1 && it.header_len == 12 && memcmp(it.header, "\x80\0\0\4\0\0\0\1\0\0\0\x09", 12) == 0);
    CHECK(it.payload == padded + 12 && it.payload_len == 2);
    padded[3] = 5, padded[15] = 5;
    take(&sfu, padded, sizeof padded, 0, &it);
    CHECK(it.count == 1 && sfu.counts.unreadable == 1 && sfu.counts.taken == 1);
    padded[15] = 4;
    take(&sfu, padded, sizeof padded, 0, &it);
    CHECK(it.count == 2 && it.payload_len == 0 && sfu.counts.taken == 2);
    return 0;
}

int main(void) {
    return forms() || times() || one_byte() || two_byte() || long_mid_without_an_id() || room() || apart() || numbers() ||
           past_32_bits() || starts_again() || padding();
}
