/* rtpw_values_read */
#include "hostile.h"

#include "walk_values.h"

void random_map(rtpw_map *map) {
    fill(map, sizeof *map);
    for (size_t i = 0; i < 256; i++) {
        map->kind[i] = map->kind[i] % 8 == 0 ? map->kind[i] : map->kind[i] / 8 % 22;
    }
}

void values_round(void) {
    static memory bodies, maps, outputs;
    static uint8_t copy[LONGEST];
    if (bodies.size == 0) {
        bodies = memory_of(LONGEST);
        maps = memory_of(sizeof(rtpw_map));
        outputs = memory_of(sizeof(rtpw_values));
    }
    size_t len = random_len();
    uint8_t *body = block_in(&bodies, len);
    uint8_t form = random_u64() % 16 == 0 ? (uint8_t)random_u64() : (uint8_t)(1 + random_u64() % 2);
    random_body(body, len, form == 1 ? 1 : 2);
    memcpy(copy, body, len);
    rtpw_map *map = block_in(&maps, sizeof *map), same_map;
    random_map(map);
    memcpy(&same_map, map, sizeof same_map);
    rtpw_values *values = block_in(&outputs, sizeof *values), before, expected;
    rtpw_layers layers;
    fill(values, sizeof *values);
    memcpy(&before, values, sizeof before);

    int32_t status = rtpw_values_read(body, len, form, map, values);
    CHECK(memcmp(body, copy, len) == 0 && memcmp(map, &same_map, sizeof same_map) == 0);
    if (form != 1 && form != 2) {
        CHECK(status == RTPW_BAD_FIELD);
        CHECK(memcmp(values, &before, sizeof before) == 0);
        return;
    }
    walk_values(copy, len, form, &same_map, &expected, &layers);
    CHECK(status == RTPW_OK);
    CHECK(same_values(values, &expected));
}
