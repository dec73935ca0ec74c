/* rtpw_parse, rtpw_parse_layers */
#include "hostile.h"

#include "walk_values.h"

static memory datagrams, maps, headers, allocations;
static uint8_t copy[LONGEST];

void headers_round(void) {
    if (maps.size == 0) {
        datagrams = memory_of(LONGEST);
        maps = memory_of(sizeof(rtpw_map));
        headers = memory_of(sizeof(rtpw_header));
        allocations = memory_of(sizeof(rtpw_layers));
    }
    size_t len = random_len();
    uint8_t *bytes = block_in(&datagrams, len);
    random_packet(bytes, len);
    memcpy(copy, bytes, len);
    rtpw_map *map = block_in(&maps, sizeof *map), same_map;
    random_map(map);
    memcpy(&same_map, map, sizeof same_map);
    rtpw_header *header = block_in(&headers, sizeof *header), before, expected;
    rtpw_layers *layers = block_in(&allocations, sizeof *layers), layers_before, expected_layers;
    fill(header, sizeof *header);
    fill(layers, sizeof *layers);
    memcpy(&before, header, sizeof before);
    memcpy(&layers_before, layers, sizeof layers_before);
    walked it = walk(copy, len);

    CHECK(rtpw_parse(bytes, len, map, header) == it.header_cause);
    if (it.header_cause != 0) {
        CHECK(memcmp(header, &before, sizeof before) == 0);
        CHECK(rtpw_parse_layers(bytes, len, map, header, layers) == it.header_cause);
        CHECK(memcmp(header, &before, sizeof before) == 0);
        CHECK(memcmp(layers, &layers_before, sizeof layers_before) == 0);
    } else {
        walk_header(copy, &it, &same_map, &expected, &expected_layers);
        CHECK(same_headers(header, &expected));
        fill(header, sizeof *header);
        CHECK(rtpw_parse_layers(bytes, len, map, header, layers) == RTPW_OK);
        CHECK(same_headers(header, &expected));
        CHECK(same_layers(layers, &expected_layers));
    }
    CHECK(memcmp(bytes, copy, len) == 0);
    CHECK(memcmp(map, &same_map, sizeof same_map) == 0);
}
