/* What a receiver reports. The expected values are worked out by hand from RFC 3550, 6.4.1, A.3 and A.8. */
#include "../rtp_wire.h"

#include <stdio.h>
#include <string.h>

static int failed = 0;

#define CHECK(holds) \
    do { \
        if (!(holds)) { \
            printf("line %d: %s\n", __LINE__, #holds); \
            failed = 1; \
        } \
    } while (0)

static const rtpw_reception NEW = {0};

static void reports(rtpw_reception *reception, uint8_t fraction, int32_t lost, uint32_t highest, uint32_t jitter) {
    rtpw_report it = {1, 1, 1, 1};
    CHECK(rtpw_reception_report(reception, &it) == RTPW_OK);
    CHECK(it.fraction_lost == fraction && it.cumulative_lost == lost);
    CHECK(it.extended_highest == highest && it.jitter == jitter);
}

/* Four were due at first, and seven then; a number below the first one's changes nothing of that. */
static void late_ones_and_duplicates(void) {
    static const uint64_t NUMBERS[] = {10, 11, 13, 13, 9};
    rtpw_reception reception = NEW;
    rtpw_report report = {1, 2, 3, 4};
    size_t i;
    CHECK(rtpw_reception_report(&reception, &report) == RTPW_NONE && report.jitter == 4);
    for (i = 0; i < sizeof NUMBERS / sizeof *NUMBERS; i++) {
        rtpw_reception_record(&reception, NUMBERS[i], 0, 0);
    }
    CHECK(reception.first == 10 && reception.highest == 13 && reception.received == 5);
    reports(&reception, 0, -1, 13, 0);
    CHECK(reception.received_before == 5 && reception.expected_before == 4);
    CHECK(rtpw_reception_report(&reception, &report) == RTPW_NONE && report.jitter == 4);
    rtpw_reception_record(&reception, 20, 0, 0);
    reports(&reception, 219, 5, 20, 0);
}

/* The rollovers are those since the first packet. */
static void cycles(void) {
    rtpw_reception reception = NEW;
    rtpw_reception_record(&reception, 65535, 0, 0);
    rtpw_reception_record(&reception, 65538, 0, 0);
    reports(&reception, 128, 2, 65538, 0);
    reception = NEW;
    rtpw_reception_record(&reception, 196613, 0, 0);
    rtpw_reception_record(&reception, 196615, 0, 0);
    reports(&reception, 85, 1, 7, 0);
    rtpw_reception_record(&reception, 262144, 0, 0);
    reports(&reception, 255, 65529, 65536, 0);
}

/* Transit times of 100, 130 and 110 ticks, while the timestamps roll over: 30, and then 30 + 20 - 2 sixteenths. */
static void jitter(void) {
    rtpw_reception reception = NEW;
    rtpw_reception_record(&reception, 1, 4294967040u, 4294967140u);
    rtpw_reception_record(&reception, 2, 4294967200u, 34);
    rtpw_reception_record(&reception, 3, 64, 174);
    CHECK(reception.scaled_jitter == 48 && reception.transit == 110);
    reports(&reception, 0, 0, 3, 3);
    rtpw_reception_record(&reception, 4, 0, 2147483758u); /* as late or as early as can be */
    CHECK(reception.scaled_jitter == 48 + 2147483648u - 3);
    reports(&reception, 0, 0, 4, 134217730);
}

static void clamps(void) {
    rtpw_reception reception = NEW;
    rtpw_reception_record(&reception, 0, 0, 0);
    rtpw_reception_record(&reception, 8388610, 0, 0);
    reports(&reception, 255, 8388607, 8388610, 0);
    reception = NEW;
    reception.first = reception.highest = 5;
    reception.received = 8388700;
    reports(&reception, 0, -8388608, 5, 0);
    reception.received = UINT64_MAX;
    rtpw_reception_record(&reception, 5, 0, 0);
    CHECK(reception.received == UINT64_MAX);
}

static void block(void) {
    static const rtpw_report REPORT = {64, -2, 65544, 1}, FAR = {1, 8388608, 2, 3}, NEAR = {1, -8388609, 2, 3};
    static const uint8_t WANTED[25] = {0, 0, 0, 44, 64, 0xFF, 0xFF, 0xFE, 0, 1, 0, 8, 0, 0, 0, 1,
                                       0x12, 0x34, 0x56, 0x78, 0, 1, 0, 0, 9};
    uint8_t buf[25];
    size_t len = 7;
    memset(buf, 9, sizeof buf);
    CHECK(rtpw_write_report(&REPORT, 44, 0x12345678, 65536, buf, 23, &len) == RTPW_SHORT_BUFFER);
    CHECK(len == 7 && buf[0] == 9);
    CHECK(rtpw_write_report(&REPORT, 44, 0x12345678, 65536, buf, sizeof buf, &len) == RTPW_OK && len == 24);
    CHECK(memcmp(buf, WANTED, sizeof buf) == 0);
    CHECK(rtpw_write_report(&FAR, 44, 0, 0, buf, sizeof buf, &len) == RTPW_OK);
    CHECK(buf[5] == 0x7F && buf[6] == 0xFF && buf[7] == 0xFF);
    CHECK(rtpw_write_report(&NEAR, 44, 0, 0, buf, sizeof buf, &len) == RTPW_OK);
    CHECK(buf[5] == 0x80 && buf[6] == 0 && buf[7] == 0);
}

int main(void) {
    late_ones_and_duplicates();
    cycles();
    jitter();
    clamps();
    block();
    return failed;
}
