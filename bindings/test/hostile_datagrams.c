/* rtpw_read_many, rtpw_packet_parse_many, rtpw_parse_many */
#include "hostile.h"

#include "walk_values.h"

enum { MOST = 9 };

/* Where a datagram of a buffer begins, and how many bytes it has. */
typedef struct {
    size_t at, len;
} place;

static memory buffers, arrays, header_arrays, whole_arrays, maps;
static uint8_t copy[LONGEST];

/* Mostly within the buffer. Others are a byte too long, begin past the end, or reach past the last address, from
 * where a sum that is cut would come back into the buffer. */
static place random_place(size_t size) {
    place it = {random_below(size + 1), 0};
    switch (random_u64() % 16) {
    case 0: it.len = size - it.at + 1; break;
    case 1: it.at = size + 1 + random_below(16); break;
    case 2: it.len = SIZE_MAX - random_below(it.at + 2); break;
    case 3: it.at = SIZE_MAX - random_below(16), it.len = random_below(64); break;
    case 4: it.at = SIZE_MAX, it.len = SIZE_MAX; break;
    case 5:
    case 6: it.len = size - it.at; break; /* to the end of the buffer */
    default: it.len = random_below(size - it.at + 1); break;
    }
    return it;
}

static bool is_within(place it, size_t size) {
    size_t end = it.at + it.len;
    return end >= it.at && end <= size;
}

static bool is_rtcp(const uint8_t *bytes, size_t len) {
    return len >= 2 && bytes[0] / 64 == 2 && bytes[1] >= 192 && bytes[1] < 224;
}

static void packets_told(const uint8_t *bytes, size_t size, const place *places, size_t count) {
    static rtpw_datagram before[MOST];
    rtpw_datagram *datagrams = block_in(&arrays, count * sizeof *datagrams);
    for (size_t i = 0; i < count; i++) {
        fill(&datagrams[i], sizeof *datagrams);
        datagrams[i].at = places[i].at;
        datagrams[i].len = places[i].len;
        memcpy(&before[i], &datagrams[i], sizeof *before);
    }
    rtpw_packet_parse_many(bytes, size, datagrams, count);
    for (size_t i = 0; i < count; i++) {
        const rtpw_datagram *told = &datagrams[i];
        CHECK(told->at == places[i].at && told->len == places[i].len);
        if (!is_within(places[i], size)) {
            CHECK(told->status == RTPW_BAD_FIELD && told->is_rtcp == 0);
            CHECK(memcmp(&told->packet, &before[i].packet, sizeof told->packet) == 0);
            continue;
        }
        const uint8_t *datagram = copy + told->at;
        walked it = walk(datagram, told->len);
        if (it.cause == 0) {
            packet_told(datagram, told->len, &it, &before[i].packet);
        }
        CHECK(told->status == it.cause && told->is_rtcp == is_rtcp(datagram, told->len));
        CHECK(memcmp(&told->packet, &before[i].packet, it.cause == 0 ? PACKET_BYTES : sizeof told->packet) == 0);
    }
}

static void headers_told(const uint8_t *bytes, size_t size, const place *places, size_t count) {
    static rtpw_datagram_header before[MOST];
    rtpw_datagram_header *datagrams = block_in(&header_arrays, count * sizeof *datagrams);
    rtpw_map *map = block_in(&maps, sizeof *map), same_map;
    random_map(map);
    memcpy(&same_map, map, sizeof same_map);
    for (size_t i = 0; i < count; i++) {
        fill(&datagrams[i], sizeof *datagrams);
        datagrams[i].at = places[i].at;
        datagrams[i].len = places[i].len;
        memcpy(&before[i], &datagrams[i], sizeof *before);
    }
    rtpw_parse_many(bytes, size, map, datagrams, count);
    for (size_t i = 0; i < count; i++) {
        const rtpw_datagram_header *told = &datagrams[i];
        CHECK(told->at == places[i].at && told->len == places[i].len);
        if (!is_within(places[i], size)) {
            CHECK(told->status == RTPW_BAD_FIELD && told->is_rtcp == 0);
            CHECK(memcmp(&told->header, &before[i].header, sizeof told->header) == 0);
            continue;
        }
        const uint8_t *datagram = copy + told->at;
        walked it = walk(datagram, told->len);
        CHECK(told->status == it.header_cause && told->is_rtcp == is_rtcp(datagram, told->len));
        if (it.header_cause == 0) {
            rtpw_header expected;
            rtpw_layers layers;
            walk_header(datagram, &it, &same_map, &expected, &layers);
            CHECK(same_headers(&told->header, &expected));
        } else {
            CHECK(memcmp(&told->header, &before[i].header, sizeof told->header) == 0);
        }
    }
    CHECK(memcmp(map, &same_map, sizeof same_map) == 0);
}

static void wholes_told(const uint8_t *bytes, size_t size, const place *places, size_t count) {
    static rtpw_whole_datagram before[MOST];
    rtpw_whole_datagram *datagrams = block_in(&whole_arrays, count * sizeof *datagrams);
    rtpw_map *map = block_in(&maps, sizeof *map), same_map;
    random_map(map);
    memcpy(&same_map, map, sizeof same_map);
    for (size_t i = 0; i < count; i++) {
        fill(&datagrams[i], sizeof *datagrams);
        datagrams[i].at = places[i].at;
        datagrams[i].len = places[i].len;
        memcpy(&before[i], &datagrams[i], sizeof *before);
    }
    rtpw_read_many(bytes, size, map, datagrams, count);
    for (size_t i = 0; i < count; i++) {
        const rtpw_whole_datagram *told = &datagrams[i];
        CHECK(told->at == places[i].at && told->len == places[i].len);
        int32_t status = RTPW_BAD_FIELD;
        if (is_within(places[i], size)) {
            const uint8_t *datagram = copy + told->at;
            walked it = walk(datagram, told->len);
            status = whole_status(datagram, told->len, &it);
            CHECK(status != RTPW_OK || whole_is_told(datagram, told->len, &it, &same_map, &told->packet));
        }
        CHECK(told->status == status);
        CHECK(status == RTPW_OK || memcmp(&told->packet, &before[i].packet, sizeof told->packet) == 0);
    }
    CHECK(memcmp(map, &same_map, sizeof same_map) == 0);
}

void datagrams_round(void) {
    if (buffers.size == 0) {
        buffers = memory_of(LONGEST);
        arrays = memory_of(MOST * sizeof(rtpw_datagram));
        header_arrays = memory_of(MOST * sizeof(rtpw_datagram_header));
        whole_arrays = memory_of(MOST * sizeof(rtpw_whole_datagram));
        maps = memory_of(sizeof(rtpw_map));
    }
    size_t size = random_len(), count = random_below(MOST + 1);
    uint8_t *bytes = block_in(&buffers, size);
    place places[MOST];
    random_packet(bytes, size);
    for (size_t i = 0; i < count; i++) {
        bool is_again = i > 0 && random_u64() % 8 == 0;
        places[i] = is_again ? places[i - 1] : random_place(size);
        /* a packet there, which may overlap those before it */
        if (is_within(places[i], size) && places[i].len > 0 && random_u64() % 4 != 0) {
            random_packet(bytes + places[i].at, places[i].len);
        }
    }
    if (size > 0) {
        memcpy(copy, bytes, size);
    }
    packets_told(bytes, size, places, count);
    headers_told(bytes, size, places, count);
    wholes_told(bytes, size, places, count);
    CHECK(size == 0 || memcmp(bytes, copy, size) == 0);
}
