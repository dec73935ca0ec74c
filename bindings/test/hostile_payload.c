/* rtpw_pad, rtpw_read_original, rtpw_write_original, rtpw_version */
#include "hostile.h"

#include "../c/rtp_wire.h"

static memory payloads, counts, numbers;
static uint8_t before[LONGEST];

static void pad(size_t len, uint8_t *datagram) {
    static const size_t blocks[] = {0, 1, 4, 8, 16, 100, 240, 241, 255, 256, 1000};
    size_t *count = block_in(&counts, sizeof *count), same_count;
    fill(count, sizeof *count);
    same_count = *count;
    uint64_t x = random_u64();
    uint8_t pad_len = x % 8 == 0 ? 0 : (uint8_t)(x >> 8);
    size_t block = x / 8 % 4 == 0 ? (size_t)random_up_to_64_bits() : blocks[random_below(11)];
    size_t header_len = x / 32 % 4 == 0 ? (size_t)random_up_to_64_bits() : random_below(len + 2);
    /* the first multiple of the block that is not below pad_len, at most 240 */
    size_t wanted = pad_len == 0 ? 0 : block;
    while (block != 0 && wanted < pad_len) {
        wanted += block;
    }
    wanted = wanted > 240 ? 240 : wanted;
    bool has_room = wanted == 0 || (len >= wanted && header_len <= len - wanted);
    int32_t expected = block == 0 ? RTPW_BAD_FIELD : has_room ? RTPW_OK : RTPW_SHORT_BUFFER;
    CHECK(rtpw_pad(datagram, len, header_len, pad_len, block, count) == expected);
    CHECK(*count == (expected == RTPW_OK ? wanted : same_count));
    if (expected == RTPW_OK && wanted > 0) {
        before[0] |= 0x20;
        memset(before + header_len, 0, wanted);
        before[header_len + wanted - 1] = (uint8_t)wanted;
    }
    CHECK(memcmp(datagram, before, len) == 0);
}

void payload_round(void) {
    if (payloads.size == 0) {
        payloads = memory_of(LONGEST);
        counts = memory_of(sizeof(size_t));
        numbers = memory_of(sizeof(uint16_t));
    }
    size_t len = random_len();
    uint8_t *payload = block_in(&payloads, len);
    random_packet(payload, len);
    memcpy(before, payload, len);
    uint16_t *number = block_in(&numbers, sizeof *number), same_number;
    fill(number, sizeof *number);
    same_number = *number;
    CHECK(rtpw_read_original(payload, len, number) == (len < 2 ? RTPW_SHORT_BUFFER : RTPW_OK));
    CHECK(*number == (len < 2 ? same_number : before[0] * 256 + before[1]));
    CHECK(memcmp(payload, before, len) == 0);

    uint64_t original = random_u64();
    CHECK(rtpw_write_original(payload, len, original) == (len < 2 ? RTPW_SHORT_BUFFER : RTPW_OK));
    if (len >= 2) {
        before[0] = (uint8_t)(original >> 8);
        before[1] = (uint8_t)original;
    }
    CHECK(memcmp(payload, before, len) == 0);
    pad(len, payload);
    CHECK(rtpw_version() == RTPW_VERSION_NUMBER);
}
