/* rtpw_read */
#include "hostile.h"

#include "walk_values.h"

static memory datagrams, maps, packets;
static uint8_t copy[LONGEST];

int32_t whole_status(const uint8_t *bytes, size_t len, const walked *it) {
    bool is_rtcp = len >= 2 && bytes[0] / 64 == 2 && bytes[1] >= 192 && bytes[1] < 224;
    return is_rtcp ? RTPW_RTCP : it->cause;
}

bool whole_is_told(const uint8_t *bytes, size_t len, const walked *it, const rtpw_map *map,
                   const rtpw_whole_packet *packet) {
    rtpw_packet parts;
    rtpw_header header;
    rtpw_layers layers;
    packet_told(bytes, len, it, &parts);
    walk_header(bytes, it, map, &header, &layers);
    return same_headers(&packet->header, &header) && packet->unpadded_len == parts.unpadded_len &&
           packet->body_at == parts.body_at && packet->body_len == parts.body_len &&
           packet->block_profile == parts.block_profile && packet->block_form == parts.block_form &&
           packet->padding_fits == parts.padding_fits;
}

void wholes_round(void) {
    if (maps.size == 0) {
        datagrams = memory_of(LONGEST);
        maps = memory_of(sizeof(rtpw_map));
        packets = memory_of(sizeof(rtpw_whole_packet));
    }
    size_t len = random_len();
    uint8_t *bytes = block_in(&datagrams, len);
    random_packet(bytes, len);
    memcpy(copy, bytes, len);
    rtpw_map *map = block_in(&maps, sizeof *map), same_map;
    random_map(map);
    memcpy(&same_map, map, sizeof same_map);
    rtpw_whole_packet *packet = block_in(&packets, sizeof *packet), before;
    fill(packet, sizeof *packet);
    memcpy(&before, packet, sizeof before);
    walked it = walk(copy, len);
    int32_t status = whole_status(copy, len, &it);

    CHECK(rtpw_read(bytes, len, map, packet) == status);
    if (status == RTPW_OK) {
        CHECK(whole_is_told(copy, len, &it, &same_map, packet));
    } else {
        CHECK(memcmp(packet, &before, sizeof before) == 0);
    }
    CHECK(memcmp(bytes, copy, len) == 0);
    CHECK(memcmp(map, &same_map, sizeof same_map) == 0);
}
