/* rtpw_reception_record, rtpw_reception_report and rtpw_write_report */
#include "hostile.h"

#include "../c/rtp_wire.h"

#define MOST 40

typedef struct {
    uint64_t number;
    uint32_t timestamp, arrival;
} packet;

static uint64_t count_to(uint64_t above) {
    return above == UINT64_MAX ? above : above + 1;
}

static uint64_t highest_of(const packet *packets, size_t count) {
    uint64_t highest = 0;
    for (size_t i = 0; i < count; i++) {
        highest = packets[i].number > highest ? packets[i].number : highest;
    }
    return highest;
}

/* RFC 3550, A.3, over all packets that came. */
static uint64_t expected_of(const packet *packets, size_t count) {
    return count == 0 ? 0 : count_to(highest_of(packets, count) - packets[0].number);
}

/* 256 times the part, by the whole, bit after bit. */
static unsigned fraction_of(uint64_t part, uint64_t whole) {
    unsigned fraction = 0;
    for (int i = 0; i < 8; i++) {
        bool carries = part >> 63 != 0;
        part *= 2;
        fraction *= 2;
        if (carries || part >= whole) {
            part -= whole;
            fraction++;
        }
    }
    return fraction;
}

/* A.8, in integers that don't wrap. */
static int64_t jitter_of(const packet *packets, size_t count) {
    int64_t jitter = 0;
    for (size_t i = 1; i < count; i++) {
        uint32_t before = packets[i - 1].arrival - packets[i - 1].timestamp;
        int64_t d = (int64_t)(int32_t)(packets[i].arrival - packets[i].timestamp - before);
        jitter += (d < 0 ? -d : d) - ((jitter + 8) >> 4);
    }
    return jitter >> 4;
}

/* The report on these packets, of which so many had come at the last one. */
static rtpw_report report_of(const packet *packets, size_t count, size_t reported) {
    uint64_t expected = expected_of(packets, count);
    uint64_t first = packets[0].number, highest = highest_of(packets, count);
    uint64_t interval = expected - expected_of(packets, reported), received = count - reported;
    rtpw_report it = {0, 0, 0, 0};
    it.fraction_lost = (uint8_t)(interval <= received ? 0 : fraction_of(interval - received, interval));
    if (expected >= count) {
        uint64_t lost = expected - count;
        it.cumulative_lost = lost > 0x7FFFFF ? 0x7FFFFF : (int32_t)lost;
    } else {
        it.cumulative_lost = -(int32_t)(count - expected);
    }
    it.extended_highest = (uint32_t)((highest / 65536 - first / 65536) << 16 | highest % 65536);
    it.jitter = (uint32_t)jitter_of(packets, count);
    return it;
}

static packet random_packet_after(const packet *before) {
    uint64_t x = random_u64(), y = random_u64();
    packet it = {before->number, (uint32_t)y, (uint32_t)(y >> 32)};
    switch (x % 16) {
    case 0: it.number = random_u64() >> x / 16 % 64; break;
    case 1: it.number -= it.number < 200 ? it.number : x / 16 % 200; break;
    case 2: break;
    case 3: it.number += it.number < UINT64_MAX / 2 ? x / 16 % 20000000 : 0; break;
    default: it.number += it.number < UINT64_MAX / 2 ? 1 + (x / 16 % 8 == 0) : 0;
    }
    if (x / 65536 % 4 != 0) {
        it.timestamp = before->timestamp + (uint32_t)(x / 1048576 % 6000);
        it.arrival = before->arrival + (it.timestamp - before->timestamp) + (uint32_t)(x >> 40) % 500 - 250;
    }
    return it;
}

static bool are_same(const rtpw_report *a, const rtpw_report *b) {
    return a->fraction_lost == b->fraction_lost && a->cumulative_lost == b->cumulative_lost
        && a->extended_highest == b->extended_highest && a->jitter == b->jitter;
}

static void a_stream(rtpw_reception *reception, rtpw_report *report) {
    packet packets[MOST] = {{0, 0, 0}};
    size_t count = random_below(MOST), reported = 0;
    uint64_t first = random_up_to_64_bits(), times = random_u64();
    packet before = {first, (uint32_t)times, (uint32_t)(times >> 32)};
    memset(reception, 0, sizeof *reception);
    for (size_t i = 0; i < count; i++) {
        packets[i] = before = i == 0 ? before : random_packet_after(&before);
        rtpw_reception_record(reception, before.number, before.timestamp, before.arrival);
        if (random_u64() % 4 == 0) {
            rtpw_report wanted = report_of(packets, i + 1, reported);
            CHECK(rtpw_reception_report(reception, report) == RTPW_OK && are_same(report, &wanted));
            reported = i + 1;
        }
        if (random_u64() % 8 == 0) {
            rtpw_report as_before = *report;
            int32_t status = reported == i + 1 ? RTPW_NONE : RTPW_OK;
            rtpw_report wanted = reported == i + 1 ? as_before : report_of(packets, i + 1, reported);
            CHECK(rtpw_reception_report(reception, report) == status && are_same(report, &wanted));
            reported = i + 1;
        }
    }
    CHECK(reception->received == count);
}

/* Each value may be passed; what it tells is whether a report is owed. */
static void any_value(rtpw_reception *reception, rtpw_report *report) {
    fill(reception, sizeof *reception);
    fill(report, sizeof *report);
    uint64_t x = random_u64();
    if (x % 4 == 0) {
        reception->received_before = reception->received;
    } else if (x % 4 == 1) {
        memset(reception, 0xFF, sizeof *reception);
        reception->received -= x / 4 % 3;
    }
    rtpw_reception old = *reception;
    rtpw_report as_before = *report;
    bool is_owed = old.received != old.received_before;
    CHECK(rtpw_reception_report(reception, report) == (is_owed ? RTPW_OK : RTPW_NONE));
    if (!is_owed) {
        CHECK(memcmp(&old, reception, sizeof old) == 0 && memcmp(&as_before, report, sizeof as_before) == 0);
    }
    old = *reception;
    uint64_t number = random_u64(), times = random_u64();
    rtpw_reception_record(reception, number, (uint32_t)times, (uint32_t)(times >> 32));
    CHECK(reception->received == (old.received == UINT64_MAX ? UINT64_MAX : old.received + 1));
    CHECK(reception->received_before == old.received_before && reception->expected_before == old.expected_before);
}

static void a_block(rtpw_report *report, size_t *len) {
    static memory buffers;
    if (buffers.size == 0) {
        buffers = memory_of(32);
    }
    fill(report, sizeof *report);
    uint64_t x = random_u64(), y = random_u64();
    report->cumulative_lost = x % 4 == 0 ? report->cumulative_lost : (int32_t)(x / 4 % 0x1000002) - 0x800001;
    size_t size = x / 65536 % 32;
    uint8_t *buf = block_in(&buffers, size), old[32], wanted[32];
    fill(buf, size);
    memcpy(old, buf, size);
    memcpy(wanted, buf, size);
    *len = 99;
    int32_t lost = report->cumulative_lost;
    lost = lost > 0x7FFFFF ? 0x7FFFFF : lost < -0x800000 ? -0x800000 : lost;
    uint32_t words[6] = {(uint32_t)y, (uint32_t)report->fraction_lost << 24 | ((uint32_t)lost & 0xFFFFFF),
                         report->extended_highest, report->jitter, (uint32_t)(y >> 32), (uint32_t)(x >> 32)};
    for (size_t i = 0; i < 24 && size >= 24; i++) {
        wanted[i] = (uint8_t)(words[i / 4] >> (24 - i % 4 * 8));
    }
    CHECK(rtpw_write_report(report, words[0], words[4], words[5], buf, size, len)
          == (size < 24 ? RTPW_SHORT_BUFFER : RTPW_OK));
    CHECK(*len == (size < 24 ? 99 : 24) && memcmp(buf, wanted, size) == 0);
}

void reception_round(void) {
    static memory receptions, reports, lens;
    if (receptions.size == 0) {
        receptions = memory_of(sizeof(rtpw_reception));
        reports = memory_of(sizeof(rtpw_report));
        lens = memory_of(sizeof(size_t));
    }
    rtpw_reception *reception = block_in(&receptions, sizeof *reception);
    rtpw_report *report = block_in(&reports, sizeof *report);
    a_stream(reception, report);
    any_value(reception, report);
    a_block(report, block_in(&lens, sizeof(size_t)));
}
