/* rtpw_kind_of_uri, rtpw_uri_of_kind, rtpw_map_set, rtpw_map_remove, rtpw_map_get, rtpw_map_standard, rtpw_id_of,
 * rtpw_new_ids_between, rtpw_renumber, rtpw_new_ids_to_retransmission, rtpw_new_ids_from_retransmission,
 * rtpw_to_retransmission, rtpw_from_retransmission */
#include "hostile.h"

#include "walk_values.h"

/* The URIs of the kinds, by their numbers. */
enum { LAST_KIND = 20 };
static const char *const URIS[LAST_KIND + 1] = {
    "",
    "http://www.webrtc.org/experiments/rtp-hdrext/abs-send-time",
    "http://www.webrtc.org/experiments/rtp-hdrext/abs-capture-time",
    "urn:ietf:params:rtp-hdrext:ssrc-audio-level",
    "urn:ietf:params:rtp-hdrext:toffset",
    "urn:3gpp:video-orientation",
    "http://www.ietf.org/id/draft-holmer-rmcat-transport-wide-cc-extensions-01",
    "http://www.webrtc.org/experiments/rtp-hdrext/playout-delay",
    "http://www.webrtc.org/experiments/rtp-hdrext/video-content-type",
    "http://www.webrtc.org/experiments/rtp-hdrext/video-timing",
    "urn:ietf:params:rtp-hdrext:sdes:rtp-stream-id",
    "urn:ietf:params:rtp-hdrext:sdes:repaired-rtp-stream-id",
    "urn:ietf:params:rtp-hdrext:sdes:mid",
    "http://tools.ietf.org/html/draft-ietf-avtext-framemarking-07",
    "http://www.webrtc.org/experiments/rtp-hdrext/color-space",
    "http://www.webrtc.org/experiments/rtp-hdrext/video-layers-allocation00",
    "urn:ietf:params:rtp-hdrext:csrc-audio-level",
    "http://www.webrtc.org/experiments/rtp-hdrext/transport-wide-cc-02",
    "https://aomediacodec.github.io/av1-rtp-spec/#dependency-descriptor-rtp-header-extension",
    "urn:ietf:params:rtp-hdrext:ntp-64",
    "urn:ietf:params:rtp-hdrext:ntp-56",
};

static memory datagrams, uris, maps, other_maps, tables, lengths, lengths;

/* A URI, at times with a byte changed, more or fewer, or bytes of any kind. */
static void uri(void) {
    static uint8_t copy[200];
    uint64_t x = random_u64();
    const char *known = URIS[x / 128 % (LAST_KIND + 1)];
    size_t len = strlen(known);
    memset(copy, 0, sizeof copy);
    memcpy(copy, known, len);
    size_t way = x / 16 % 8;
    if (way == 0) {
        fill(copy, sizeof copy);
        len = random_below(sizeof copy);
    } else if (way == 1 && len != 0) {
        size_t at = random_below(len);
        copy[at] ^= (uint8_t)(1u << random_below(8));
    } else if (way == 2) {
        len = random_below(len + 2); /* with a zero behind it, say */
    }
    uint8_t kind = 0;
    for (uint8_t i = 1; i <= LAST_KIND; i++) {
        if (strlen(URIS[i]) == len && memcmp(URIS[i], copy, len) == 0) {
            kind = i;
        }
    }
    uint8_t *bytes = block_in(&uris, len);
    memcpy(bytes, copy, len);
    CHECK(rtpw_kind_of_uri(bytes, len) == kind);
    CHECK(memcmp(bytes, copy, len) == 0);
}

/* A URI of which one byte is another, each in turn, is none. */
static void changed_uris(void) {
    const char *known = URIS[1 + round_number % LAST_KIND];
    size_t len = strlen(known);
    uint8_t *bytes = block_in(&uris, len);
    memcpy(bytes, known, len);
    for (size_t i = 0; i < len; i++) {
        bytes[i] ^= 1;
        uint8_t kind = rtpw_kind_of_uri(bytes, len);
        CHECK(kind == RTPW_KIND_NONE || strlen(URIS[kind]) == len);
        CHECK(kind == RTPW_KIND_NONE || memcmp(URIS[kind], bytes, len) == 0);
        bytes[i] ^= 1;
    }
    CHECK(rtpw_kind_of_uri(bytes, len) == 1 + round_number % LAST_KIND);
}

/* The URI of any number, in as many bytes, fewer or more. */
static void uri_of(void) {
    static uint8_t before[100];
    uint64_t x = random_u64();
    uint8_t kind = (uint8_t)(x % 4 == 0 ? x >> 8 : 1 + x / 1024 % LAST_KIND);
    bool is_kind = kind >= 1 && kind <= LAST_KIND;
    size_t wanted = is_kind ? strlen(URIS[kind]) : 0,
           size = x / 64 % 4 == 0 ? random_below(wanted + 1) : wanted + x / 256 % 8;
    uint8_t *bytes = block_in(&uris, size);
    fill(bytes, size);
    memcpy(before, bytes, size);
    size_t *len = block_in(&lengths, sizeof *len);
    *len = 200;
    int32_t due = !is_kind ? RTPW_NONE : size < wanted ? RTPW_SHORT_BUFFER : RTPW_OK;
    CHECK(rtpw_uri_of_kind(kind, bytes, size, len) == due);
    CHECK(*len == (due == RTPW_OK ? wanted : 200));
    if (due == RTPW_OK) {
        memcpy(before, URIS[kind], wanted);
    }
    CHECK(memcmp(bytes, before, size) == 0);
}

/* The number of a kind, or one of the caller's own. */
static bool is_named(uint8_t kind) {
    return (kind >= 1 && kind <= LAST_KIND) || kind >= 128;
}

/* The lowest id that means the kind, which names something; 0 where none does. */
static uint8_t lowest_id(const rtpw_map *map, uint8_t kind) {
    const uint8_t *at = is_named(kind) ? memchr(map->kind + 1, kind, 255) : NULL;
    return at == NULL ? 0 : (uint8_t)(at - map->kind);
}

static void map_calls(rtpw_map *map) {
    rtpw_map expected;
    memcpy(&expected, map, sizeof expected);
    uint64_t x = random_u64();
    uint8_t id = (uint8_t)(x % 8 == 0 ? 0 : x / 8), kind = (uint8_t)(x / 65536 % 4 == 0 ? x >> 32 : (x >> 32) % 22);
    uint8_t held = id != 0 && is_named(map->kind[id]) ? map->kind[id] : 0;
    CHECK(rtpw_map_get(map, id) == held);
    CHECK(rtpw_id_of(map, kind) == lowest_id(map, kind));
    CHECK(rtpw_id_of(map, map->kind[id]) == lowest_id(map, map->kind[id]));
    if (x / 1048576 % 4 == 0) {
        rtpw_map_remove(map, id);
        CHECK(rtpw_map_get(map, id) == 0);
        expected.kind[id] = id != 0 ? 0 : map->kind[0];
        CHECK(memcmp(map, &expected, sizeof expected) == 0);
    }
    bool is_set = id != 0 && is_named(kind);
    CHECK(rtpw_map_set(map, id, kind) == (is_set ? RTPW_OK : RTPW_BAD_FIELD));
    if (is_set) {
        expected.kind[id] = kind;
        CHECK(rtpw_map_get(map, id) == kind);
    }
    CHECK(memcmp(map, &expected, sizeof expected) == 0);
    if (x / 4096 % 64 == 0) {
        static const uint8_t usual[16] = {0, 3, 1, 6, 12, 0, 0, 0, 0, 0, 10, 11, 0, 5, 0, 0};
        rtpw_map_standard(map);
        for (size_t i = 1; i < 256; i++) {
            CHECK(map->kind[i] == (i < 16 ? usual[i] : 0));
        }
    }
}

static void new_ids(const rtpw_map *from, const rtpw_map *to, rtpw_new_ids *ids) {
    rtpw_map same_from, same_to;
    memcpy(&same_from, from, sizeof same_from);
    memcpy(&same_to, to, sizeof same_to);
    fill(ids, sizeof *ids);
    rtpw_new_ids_between(from, to, ids);
    CHECK(memcmp(from, &same_from, sizeof same_from) == 0 && memcmp(to, &same_to, sizeof same_to) == 0);
    for (size_t id = 1; id < 256; id++) {
        CHECK(ids->id[id] == lowest_id(&same_to, same_from.kind[id]));
    }
    CHECK(ids->id[0] == 0);
}

/* The new id that the table has for an element's. */
static unsigned new_id(const rtpw_new_ids *ids, const found *element) {
    return element->id == 0 ? 0 : ids->id[element->id];
}

static bool is_carried(const uint8_t *body, const walked *it, const rtpw_new_ids *ids) {
    found element;
    for (size_t at = 0; it->form == 1 && walk_on(body, it->body_len, 1, at, &element);) {
        at = element.data_at + element.data_len;
        if (new_id(ids, &element) > 14) {
            return false;
        }
    }
    return true;
}

static void renumber_in(uint8_t *body, const walked *it, const rtpw_new_ids *ids) {
    found element;
    for (size_t at = 0; walk_on(body, it->body_len, it->form, at, &element);) {
        unsigned id = new_id(ids, &element);
        at = element.data_at + element.data_len;
        if (id == 0) {
            memset(body + element.start, 0, at - element.start);
        } else {
            body[element.start] = (uint8_t)(it->form == 1 ? id * 16 + body[element.start] % 16 : id);
        }
    }
}

static void renumber(const rtpw_new_ids *ids) {
    static uint8_t expected[LONGEST];
    rtpw_new_ids same;
    memcpy(&same, ids, sizeof same);
    size_t len = random_len();
    uint8_t *bytes = block_in(&datagrams, len);
    random_packet(bytes, len);
    memcpy(expected, bytes, len);
    walked it = walk(expected, len);
    int32_t status = it.cause;
    if (it.cause == 0) {
        bool is_renumbered = is_carried(expected + it.body_at, &it, &same);
        status = is_renumbered ? RTPW_OK : RTPW_LONG_ID;
        if (is_renumbered) {
            renumber_in(expected + it.body_at, &it, &same);
        }
    }
    CHECK(rtpw_renumber(bytes, len, ids) == status);
    CHECK(memcmp(bytes, expected, len) == 0);
    CHECK(memcmp(ids, &same, sizeof same) == 0);
}

/* The ids of one kind become the lowest of another, whose ids get none, where the map has both. */
static void renamed_ids(const rtpw_map *map, rtpw_new_ids *ids, unsigned kind, unsigned other) {
    size_t lowest = 0;
    bool has_kind = false;
    for (size_t i = 255; i > 0; i--) {
        lowest = map->kind[i] == other ? i : lowest;
        has_kind = has_kind || map->kind[i] == kind;
    }
    bool has_both = has_kind && lowest > 0;
    fill(ids, sizeof *ids);
    if (kind == RTPW_KIND_RID) {
        rtpw_new_ids_to_retransmission(map, ids);
    } else {
        rtpw_new_ids_from_retransmission(map, ids);
    }
    CHECK(ids->id[0] == 0);
    for (size_t i = 1; i < 256; i++) {
        bool is_renamed = has_both && map->kind[i] == kind, is_gone = has_both && map->kind[i] == other;
        CHECK(ids->id[i] == (is_renamed ? lowest : is_gone ? 0 : i));
    }
}

/* What a retransmission, or the packet that it repeats, is to be in a buffer: the status, and the length. */
static int32_t retransmitted(uint8_t *bytes, size_t size, size_t *len, uint32_t ssrc, uint8_t payload_type,
                             unsigned number, bool is_back, const rtpw_new_ids *ids) {
    if (payload_type > 127 || *len > size) {
        return RTPW_BAD_FIELD;
    }
    walked it = walk(bytes, *len);
    if (it.cause != 0) {
        return it.cause;
    }
    size_t at = it.header_len, end = *len;
    if ((bytes[0] & 0x20) != 0 && end > at) {
        if (bytes[end - 1] > end - at) {
            return RTPW_BAD_FIELD;
        }
        end -= bytes[end - 1];
    }
    if (is_back && end - at < 2) {
        return RTPW_NONE;
    }
    if (!is_carried(bytes + it.body_at, &it, ids)) {
        return RTPW_LONG_ID;
    }
    if (!is_back && size - end < 2) {
        return RTPW_SHORT_BUFFER;
    }
    renumber_in(bytes + it.body_at, &it, ids);
    uint8_t original[2] = {bytes[2], bytes[3]};
    bytes[2] = is_back ? bytes[at] : (uint8_t)(number >> 8);
    bytes[3] = is_back ? bytes[at + 1] : (uint8_t)number;
    if (is_back) {
        memmove(bytes + at, bytes + at + 2, end - at - 2);
    } else {
        memmove(bytes + at + 2, bytes + at, end - at);
        memcpy(bytes + at, original, 2);
    }
    bytes[0] &= 0xDF;
    bytes[1] = (uint8_t)((bytes[1] & 0x80) | payload_type);
    for (int i = 0; i < 4; i++) {
        bytes[8 + i] = (uint8_t)(ssrc >> (24 - 8 * i));
    }
    *len = is_back ? end - 2 : end + 2;
    return RTPW_OK;
}

static void retransmission(const rtpw_new_ids *ids) {
    static uint8_t expected[LONGEST];
    rtpw_new_ids same;
    memcpy(&same, ids, sizeof same);
    size_t size = random_len();
    uint8_t *buf = block_in(&datagrams, size);
    random_packet(buf, size);
    memcpy(expected, buf, size);
    uint64_t x = random_u64();
    size_t *len = block_in(&lengths, sizeof *len);
    *len = x % 16 == 0 ? (size_t)random_u64() : x % 16 < 8 && size > 4 ? size - x / 16 % 4 : size;
    walked header = walk(buf, size);
    if (x / 1048576 % 4 == 0 && header.cause == 0 && header.header_len + 9 < size) {
        *len = header.header_len + x / 4194304 % 8; /* hardly a payload */
    }
    size_t wanted = *len;
    uint8_t payload_type = (uint8_t)(x / 64 % (x / 16384 % 8 == 0 ? 256 : 128));
    uint32_t ssrc = (uint32_t)random_u64();
    uint16_t number = (uint16_t)random_u64();
    bool is_back = x / 131072 % 2 == 0;
    int32_t status = retransmitted(expected, size, &wanted, ssrc, payload_type, number, is_back, &same);
    CHECK((is_back ? rtpw_from_retransmission(buf, size, len, ssrc, payload_type, ids)
                   : rtpw_to_retransmission(buf, size, len, ssrc, payload_type, number, ids)) == status);
    CHECK(*len == wanted);
    CHECK(memcmp(buf, expected, size) == 0);
    CHECK(memcmp(ids, &same, sizeof same) == 0);
}

void maps_round(void) {
    if (maps.size == 0) {
        lengths = memory_of(sizeof(size_t));
        datagrams = memory_of(LONGEST);
        uris = memory_of(200);
        lengths = memory_of(sizeof(size_t));
        maps = memory_of(sizeof(rtpw_map));
        other_maps = memory_of(sizeof(rtpw_map));
        tables = memory_of(sizeof(rtpw_new_ids));
    }
    uri();
    changed_uris();
    uri_of();
    rtpw_map *from = block_in(&maps, sizeof *from), *to = block_in(&other_maps, sizeof *to);
    random_map(from);
    random_map(to);
    map_calls(from);
    rtpw_new_ids *ids = block_in(&tables, sizeof *ids);
    new_ids(from, to, ids);
    uint64_t x = random_u64();
    if (x % 4 == 0) {
        fill(ids, sizeof *ids);
    }
    for (size_t i = 0; x % 4 == 1 && i < 256; i++) {
        ids->id[i] %= 15;
    }
    renumber(ids);
    retransmission(ids);
    renamed_ids(from, ids, RTPW_KIND_RID, RTPW_KIND_REPAIRED_RID);
    renamed_ids(from, ids, RTPW_KIND_REPAIRED_RID, RTPW_KIND_RID);
    retransmission(ids);
}
