/* rtpw_write, rtpw_wire_len and rtpw_left_out of a header that has one of the values, or none. */
#include "hostile.h"

static void one_value(void) {
    static uint8_t buf[16384];
    static rtpw_map map;
    rtpw_header header;
    uint64_t x = random_u64();
    random_header(&header);
    uint8_t *has = &header.values.has_send_time;
    size_t count = (size_t)(&header.values.has_layers - has) + 1, which = random_below(count + 1), len = 0, wanted = 0;
    uint32_t kinds = 0;
    memset(has, 0, count);
    if (which < count) {
        has[which] = 1;
    }
    header.has_extension = x / 64 % 2 == 0 ? 0 : header.has_extension;
    if (x % 4 == 0) {
        memset(&map, 0, sizeof map);
    } else if (x % 4 == 1) {
        random_map(&map);
    } else {
        sparse_map(&map);
    }
    int32_t status = rtpw_write(&map, &header, buf, sizeof buf, &len);
    CHECK(rtpw_wire_len(&map, &header, &wanted) == status && len == wanted);
    CHECK(rtpw_left_out(&map, &header, &kinds) == status && (kinds == 0 || which < count));
}

void one_value_round(void) {
    for (int i = 0; i < 12; i++) {
        one_value();
    }
}
