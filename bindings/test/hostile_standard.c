/* The functions of "Values as the standards lay them out" (rtp_wire.h), each against a reading and a writing of this
 * file's own. */
#include "hostile.h"

#include "walk_values.h"

static memory inputs, given, outputs, buffers, lengths;

/* The bytes that are read, or the buffer that is written into, as they were. */
static uint8_t before[512];

/* Random bytes, of which there are mostly few. */
static uint8_t *some_bytes(memory *it, size_t *len) {
    static const size_t often[] = {1, 2, 3, 4, 7, 8, 12, 13, 28};
    uint64_t x = random_u64();
    size_t bound = x % 4 == 2 ? 40 : sizeof before;
    *len = x % 4 < 2 ? often[random_below(sizeof often / sizeof *often)] : random_below(bound);
    uint8_t *bytes = block_in(it, *len);
    fill(bytes, *len);
    if (*len > 0) {
        memcpy(before, bytes, *len);
    }
    return bytes;
}

static const uint8_t *data_to_read(size_t *len) {
    return some_bytes(&inputs, len);
}

static bool are_unread(const uint8_t *data, size_t len) {
    return len == 0 || memcmp(data, before, len) == 0;
}

/* A struct of random bytes that is to be written, or to be written into; `same` has its bytes. */
static void *some_struct(memory *it, void *same, size_t size) {
    void *out = block_in(it, size);
    fill(out, size);
    memcpy(same, out, size);
    return out;
}

/* Mostly a flag, and at times another number. */
static void make_flag(uint8_t *flag) {
    *flag = *flag < 240 ? *flag % 2 : *flag;
}

static unsigned number_at(const uint8_t *bytes) {
    return bytes[0] * 256u + bytes[1];
}

static size_t put_number(uint8_t *bytes, size_t at, unsigned number) {
    bytes[at] = (uint8_t)(number / 256);
    bytes[at + 1] = (uint8_t)(number % 256);
    return at + 2;
}

/* Where a writing is to put its data. */
typedef struct {
    uint8_t *buf;
    size_t size;
    size_t *len;
    size_t same_len;
} room;

static room some_room(void) {
    room it;
    it.buf = some_bytes(&buffers, &it.size);
    it.len = some_struct(&lengths, &it.same_len, sizeof it.same_len);
    return it;
}

/* Whether these data were written, or nothing where there are none or no room for them. */
static bool was_written(room it, int32_t status, bool has_data, const uint8_t *data, size_t data_len) {
    bool has_room = data_len <= it.size;
    if (has_data && has_room) {
        memcpy(before, data, data_len);
    }
    return status == (!has_data  ? RTPW_BAD_FIELD
                      : has_room ? RTPW_OK
                                 : RTPW_SHORT_BUFFER) &&
           *it.len == (status == RTPW_OK ? data_len : it.same_len) &&
           (it.size == 0 || memcmp(it.buf, before, it.size) == 0);
}

static void send_time(void) {
    size_t len;
    const uint8_t *data = data_to_read(&len);
    uint32_t same, *units = some_struct(&outputs, &same, sizeof same);
    int32_t status = rtpw_read_send_time(data, len, units);
    CHECK(status == (len == 3 ? RTPW_OK : RTPW_BAD_FIELD) && are_unread(data, len));
    CHECK(*units == (len == 3 ? before[0] * 65536u + number_at(before + 1) : same));

    room it = some_room();
    static const uint32_t ends[] = {0, 1, 16777215, 16777216, UINT32_MAX};
    uint64_t x = random_u64();
    uint32_t wanted = x % 4 == 0 ? ends[x / 4 % 5] : x % 4 == 1 ? (uint32_t)(x >> 32) : (uint32_t)(x >> 40);
    uint8_t bytes[3] = {(uint8_t)(wanted / 65536), (uint8_t)(wanted / 256), (uint8_t)wanted};
    status = rtpw_write_send_time(wanted, it.buf, it.size, it.len);
    CHECK(was_written(it, status, wanted < 16777216, bytes, 3));
}

/* Of the times that end in the bits of `low` one that is nearest to another; of two the later one. */
static void is_nearest(uint64_t time, uint64_t about, uint64_t low, uint64_t rollover) {
    uint64_t ahead = time - about, behind = about - time;
    uint64_t apart = ahead < behind ? ahead : behind;
    CHECK(time % rollover == low % rollover && apart <= rollover / 2);
    CHECK(apart < rollover / 2 || apart == ahead);
}

static void extend_send_time(void) {
    const uint64_t rollover = (uint64_t)1 << 38;
    uint64_t about = random_u64(), x = random_u64();
    uint32_t units = (uint32_t)(x >> 32);
    if (x % 4 == 0) { /* in the middle, or a unit beside it */
        about = about / 16384 * 16384 + x / 4 % 3 - 1;
        units = (uint32_t)((about + rollover / 2) / 16384 + x / 16 % 3 - 1);
    }
    is_nearest(rtpw_extend_send_time(about, units), about, (uint64_t)units % 16777216 * 16384, rollover);
}

static void transmission_offset(void) {
    size_t len;
    const uint8_t *data = data_to_read(&len);
    int32_t same, *offset = some_struct(&outputs, &same, sizeof same);
    int32_t status = rtpw_read_transmission_offset(data, len, offset);
    CHECK(status == (len == 3 ? RTPW_OK : RTPW_BAD_FIELD) && are_unread(data, len));
    if (len == 3) {
        same = (int32_t)(before[0] % 128 * 65536u + number_at(before + 1)) - (before[0] < 128 ? 0 : 8388608);
    }
    CHECK(*offset == same);

    room it = some_room();
    uint64_t x = random_u64();
    static const int32_t ends[] = {8388607, 8388608, -8388608, -8388609, INT32_MAX, INT32_MIN, 0, -1};
    int32_t wanted = x % 4 == 0 ? ends[x / 4 % 8] : x % 4 == 1 ? (int32_t)(x >> 32) : (int32_t)(x >> 40) - 8388608;
    uint32_t low = (uint32_t)wanted % 16777216;
    uint8_t bytes[3] = {(uint8_t)(low / 65536), (uint8_t)(low / 256), (uint8_t)low};
    status = rtpw_write_transmission_offset(wanted, it.buf, it.size, it.len);
    CHECK(was_written(it, status, wanted >= -8388608 && wanted <= 8388607, bytes, 3));
}

static void frame_marking(void) {
    size_t len;
    const uint8_t *data = data_to_read(&len);
    rtpw_frame_marking same, *read = some_struct(&outputs, &same, sizeof same);
    int32_t status = rtpw_read_frame_marking(data, len, read);
    CHECK(status == (len >= 1 && len <= 3 ? RTPW_OK : RTPW_BAD_FIELD) && are_unread(data, len));
    if (status == RTPW_OK) {
        memset(&same, 0, sizeof same);
        same.start = before[0] / 128;
        same.end = before[0] / 64 % 2;
        same.independent = before[0] / 32 % 2;
        same.discardable = before[0] / 16 % 2;
        if (len >= 2) {
            same.has_layers = 1;
            same.base_layer_sync = before[0] / 8 % 2;
            same.temporal_id = before[0] % 8;
            same.layer_id = before[1];
        }
        if (len == 3) {
            same.has_tl0_pic_idx = 1;
            same.tl0_pic_idx = before[2];
        }
    }
    CHECK(memcmp(read, &same, sizeof same) == 0);

    room it = some_room();
    rtpw_frame_marking *marking = some_struct(&given, &same, sizeof same);
    make_flag(&marking->has_layers);
    make_flag(&marking->has_tl0_pic_idx);
    marking->temporal_id = marking->temporal_id < 128 ? marking->temporal_id % 9 : marking->temporal_id;
    memcpy(&same, marking, sizeof same);
    uint8_t bytes[3] = {0, same.layer_id, same.tl0_pic_idx};
    bytes[0] = (uint8_t)((same.start != 0) * 128 + (same.end != 0) * 64 + (same.independent != 0) * 32 +
                         (same.discardable != 0) * 16);
    size_t bytes_len = 1;
    if (same.has_layers != 0) {
        bytes[0] = (uint8_t)(bytes[0] + (same.base_layer_sync != 0) * 8 + same.temporal_id % 8);
        bytes_len = same.has_tl0_pic_idx != 0 ? 3 : 2;
    }
    status = rtpw_write_frame_marking(marking, it.buf, it.size, it.len);
    CHECK(was_written(it, status, same.has_layers == 0 || same.temporal_id <= 7, bytes, bytes_len));
    CHECK(memcmp(marking, &same, sizeof same) == 0);
}

static void orientation(void) {
    /* by R1 R0: how far it was turned clockwise, which is undone the other way */
    static const uint16_t turns[4] = {0, 270, 180, 90};
    size_t len;
    const uint8_t *data = data_to_read(&len);
    rtpw_orientation same, *read = some_struct(&outputs, &same, sizeof same);
    int32_t status = rtpw_read_orientation(data, len, read);
    CHECK(status == (len == 1 ? RTPW_OK : RTPW_BAD_FIELD) && are_unread(data, len));
    if (status == RTPW_OK) {
        same.camera = before[0] / 8 % 2 == 0 ? RTPW_CAMERA_FRONT : RTPW_CAMERA_BACK;
        same.flip = before[0] / 4 % 2;
        same.turn = turns[before[0] % 4];
    }
    CHECK(memcmp(read, &same, sizeof same) == 0);

    room it = some_room();
    rtpw_orientation *taken = some_struct(&given, &same, sizeof same);
    uint64_t x = random_u64();
    taken->turn = x % 8 == 0 ? taken->turn : turns[x / 8 % 4];
    make_flag(&taken->camera);
    memcpy(&same, taken, sizeof same);
    unsigned turn = 0;
    while (turn < 4 && turns[turn] != same.turn) {
        turn++;
    }
    uint8_t byte = (uint8_t)(same.camera * 8 + (same.flip != 0) * 4 + turn);
    status = rtpw_write_orientation(taken, it.buf, it.size, it.len);
    CHECK(was_written(it, status, turn < 4 && same.camera <= 1, &byte, 1));
    CHECK(memcmp(taken, &same, sizeof same) == 0);
}

static void token(void) {
    size_t len;
    uint8_t *data = some_bytes(&inputs, &len);
    static const char others[] = "\"(),/:;<=>?@[\\]";
    bool is_token = len >= 1 && len <= 255;
    if (random_u64() % 2 == 0) {
        for (size_t i = 0; i < len; i++) {
            data[i] = before[i] = (uint8_t)(33 + data[i] % 94);
        }
    }
    if (random_u64() % 2 == 0) {
        for (size_t i = 0; i < len; i++) {
            data[i] = before[i] = strchr(others, data[i]) == NULL ? data[i] : '-';
        }
    }
    for (size_t i = 0; i < len; i++) {
        is_token = is_token && data[i] > 32 && data[i] < 127 && strchr(others, data[i]) == NULL;
    }
    CHECK(rtpw_is_token(data, len) == is_token && are_unread(data, len));
}

static void stream_id(void) {
    size_t len;
    uint8_t *data = some_bytes(&inputs, &len);
    bool is_id = len >= 1 && len <= 255;
    if (random_u64() % 2 == 0) {
        for (size_t i = 0; i < len; i++) {
            data[i] = before[i] = (uint8_t)("AZaz09"[data[i] % 6]);
        }
        if (len > 0 && random_u64() % 2 == 0) { /* one of any byte, as those beside letters and digits */
            size_t at = random_below(len);
            data[at] = before[at] =
                random_u64() % 2 == 0 ? (uint8_t) "@[`{/:-_"[random_below(8)] : (uint8_t)random_u64();
        }
    }
    for (size_t i = 0; i < len; i++) {
        is_id = is_id && is_letter_or_digit(data[i]);
    }
    CHECK(rtpw_is_stream_id(data, len) == is_id && are_unread(data, len));
}

static void timing(void) {
    size_t len;
    const uint8_t *data = data_to_read(&len);
    rtpw_timing same, *read = some_struct(&outputs, &same, sizeof same);
    int32_t status = rtpw_read_timing(data, len, read);
    CHECK(status == (len == 12 || len == 13 ? RTPW_OK : RTPW_BAD_FIELD) && are_unread(data, len));
    if (status == RTPW_OK) {
        const uint8_t *times = before + (len - 12);
        same.has_flags = len == 13;
        same.flags = len == 13 ? before[0] : 0;
        same.encode_start = (uint16_t)number_at(times);
        same.encode_finish = (uint16_t)number_at(times + 2);
        same.packetize_complete = (uint16_t)number_at(times + 4);
        same.last_left_pacer = (uint16_t)number_at(times + 6);
        same.network = (uint16_t)number_at(times + 8);
        same.network2 = (uint16_t)number_at(times + 10);
    }
    CHECK(memcmp(read, &same, sizeof same) == 0);

    room it = some_room();
    rtpw_timing *sent = some_struct(&given, &same, sizeof same);
    make_flag(&sent->has_flags);
    memcpy(&same, sent, sizeof same);
    uint8_t bytes[13];
    size_t at = same.has_flags != 0;
    bytes[0] = same.flags;
    at = put_number(bytes, at, same.encode_start);
    at = put_number(bytes, at, same.encode_finish);
    at = put_number(bytes, at, same.packetize_complete);
    at = put_number(bytes, at, same.last_left_pacer);
    at = put_number(bytes, at, same.network);
    at = put_number(bytes, at, same.network2);
    status = rtpw_write_timing(sent, it.buf, it.size, it.len);
    CHECK(was_written(it, status, true, bytes, at) && memcmp(sent, &same, sizeof same) == 0);
}

static void transport_number(void) {
    size_t len;
    uint8_t *data = some_bytes(&inputs, &len);
    if (len == 4 && random_u64() % 8 == 0) { /* a request for no packets */
        data[2] = before[2] &= 128;
        data[3] = before[3] = 0;
    }
    rtpw_transport_number same, *read = some_struct(&outputs, &same, sizeof same);
    int32_t status = rtpw_read_transport_number(data, len, read);
    CHECK(status == (len == 2 || len == 4 ? RTPW_OK : RTPW_BAD_FIELD) && are_unread(data, len));
    if (status == RTPW_OK) {
        memset(&same, 0, sizeof same);
        same.number = (uint16_t)number_at(before);
        if (len == 4) {
            same.has_request = 1;
            same.timestamps = before[2] / 128;
            same.packets = (uint16_t)(number_at(before + 2) % 32768);
        }
    }
    CHECK(memcmp(read, &same, sizeof same) == 0);

    room it = some_room();
    rtpw_transport_number *sent = some_struct(&given, &same, sizeof same);
    static const uint16_t ends[] = {0, 1, 32767, 32768, 65535};
    uint64_t x = random_u64();
    make_flag(&sent->has_request);
    sent->packets = x % 4 == 0 ? ends[x / 4 % 5] : x % 4 == 1 ? sent->packets : sent->packets % 32768;
    memcpy(&same, sent, sizeof same);
    uint8_t bytes[4];
    size_t at = put_number(bytes, 0, same.number);
    if (same.has_request != 0) {
        at = put_number(bytes, at, ((same.timestamps != 0) * 32768u + same.packets) % 65536);
    }
    status = rtpw_write_transport_number(sent, it.buf, it.size, it.len);
    bool is_request = same.has_request == 0 || same.packets <= 32767;
    CHECK(was_written(it, status, is_request, bytes, at) && memcmp(sent, &same, sizeof same) == 0);
}

static void mixer_levels(void) {
    size_t len;
    const uint8_t *data = data_to_read(&len);
    uint64_t x = random_u64();
    size_t csrc_count = x % 8 == 0 ? (size_t)random_u64() : random_below(16);
    size_t index = x % 8 == 1 ? (size_t)random_u64() : random_below(16);
    int8_t same, *read = some_struct(&outputs, &same, sizeof same);
    int32_t status = rtpw_read_mixer_level(data, len, csrc_count, index, read);
    bool has_level = index < csrc_count && index < len;
    CHECK(status == (has_level ? RTPW_OK : RTPW_BAD_FIELD) && are_unread(data, len));
    CHECK(*read == (has_level ? -(int)(before[index] % 128) : same));

    size_t count = random_below(20);
    int8_t same_levels[20], *levels = block_in(&given, count);
    uint8_t bytes[20];
    bool are_levels = count <= 15;
    x = random_u64();
    for (size_t i = 0; i < count; i++) {
        int level = x % 16 == 0 ? (int)(random_u64() % 256) - 128 : -(int)random_below(128);
        levels[i] = same_levels[i] = (int8_t)level;
        are_levels = are_levels && level >= -127 && level <= 0;
        bytes[i] = (uint8_t)-level;
    }
    room it = some_room();
    status = rtpw_write_mixer_levels(levels, count, it.buf, it.size, it.len);
    CHECK(was_written(it, status, are_levels, bytes, count));
    CHECK(count == 0 || memcmp(levels, same_levels, count) == 0);
}

static uint64_t big_endian(const uint8_t *bytes, size_t len) {
    uint64_t number = 0;
    for (size_t i = 0; i < len; i++) {
        number = number * 256 + bytes[i];
    }
    return number;
}

/* Of this many bytes. */
static void ntp(size_t size, int32_t (*read)(const uint8_t *, size_t, uint64_t *),
                int32_t (*write)(uint64_t, uint8_t *, size_t, size_t *)) {
    size_t len;
    const uint8_t *data = data_to_read(&len);
    uint64_t same, *time = some_struct(&outputs, &same, sizeof same);
    int32_t status = read(data, len, time);
    CHECK(status == (len == size ? RTPW_OK : RTPW_BAD_FIELD) && are_unread(data, len));
    CHECK(*time == (len == size ? big_endian(before, size) : same));

    room it = some_room();
    uint64_t wanted = random_u64();
    uint8_t bytes[8];
    for (size_t i = 0; i < size; i++) {
        bytes[i] = (uint8_t)(wanted >> (8 * (size - 1 - i)));
    }
    status = write(wanted, it.buf, it.size, it.len);
    CHECK(was_written(it, status, true, bytes, size));
}

static void extend_ntp_56(void) {
    const uint64_t rollover = (uint64_t)1 << 56;
    uint64_t about = random_u64(), low = random_u64(), x = random_u64();
    if (x % 4 == 0) { /* as near as can be to the middle */
        low = about + rollover / 2 + x / 4 % 3 - 1;
    }
    is_nearest(rtpw_extend_ntp_56(about, low), about, low, rollover);
}

static rtpw_chromaticity point_at(const uint8_t *bytes) {
    rtpw_chromaticity point = {(uint16_t)number_at(bytes), (uint16_t)number_at(bytes + 2)};
    return point;
}

static size_t put_point(uint8_t *bytes, size_t at, rtpw_chromaticity point) {
    return put_number(bytes, put_number(bytes, at, point.x), point.y);
}

/* The fields, of which the last byte of the struct is none. */
static bool same_space(const rtpw_color_space *a, const rtpw_color_space *b) {
    return memcmp(a, b, offsetof(rtpw_color_space, has_hdr)) == 0 && a->has_hdr == b->has_hdr;
}

static void color_space(void) {
    size_t len;
    const uint8_t *data = data_to_read(&len);
    rtpw_color_space same, *read = some_struct(&outputs, &same, sizeof same);
    int32_t status = rtpw_read_color_space(data, len, read);
    bool is_space = (len == 4 || len == 28) && before[3] / 4 % 4 != 3 && before[3] % 4 != 3;
    CHECK(status == (is_space ? RTPW_OK : RTPW_BAD_FIELD) && are_unread(data, len));
    if (is_space) {
        memset(&same, 0, sizeof same);
        same.primaries = before[0];
        same.transfer = before[1];
        same.matrix = before[2];
        same.range = before[3] / 16 % 4;
        same.horizontal = before[3] / 4 % 4;
        same.vertical = before[3] % 4;
        if (len == 28) {
            same.has_hdr = 1;
            same.hdr.luminance_max = (uint16_t)number_at(before + 4);
            same.hdr.luminance_min = (uint16_t)number_at(before + 6);
            same.hdr.red = point_at(before + 8);
            same.hdr.green = point_at(before + 12);
            same.hdr.blue = point_at(before + 16);
            same.hdr.white = point_at(before + 20);
            same.hdr.max_content_light_level = (uint16_t)number_at(before + 24);
            same.hdr.max_frame_average_light_level = (uint16_t)number_at(before + 26);
        }
    }
    CHECK(same_space(read, &same));

    room it = some_room();
    rtpw_color_space *space = some_struct(&given, &same, sizeof same);
    uint64_t x = random_u64();
    make_flag(&space->has_hdr);
    space->range = x % 8 == 0 ? space->range % 6 : space->range % 4;
    space->horizontal = x % 8 == 1 ? space->horizontal % 5 : space->horizontal % 3;
    space->vertical = x % 8 == 2 ? space->vertical : space->vertical % 3;
    memcpy(&same, space, sizeof same);
    uint8_t bytes[28] = {same.primaries, same.transfer, same.matrix};
    bytes[3] = (uint8_t)(same.range * 16 + same.horizontal * 4 + same.vertical);
    size_t at = 4;
    if (same.has_hdr != 0) {
        at = put_number(bytes, at, same.hdr.luminance_max);
        at = put_number(bytes, at, same.hdr.luminance_min);
        at = put_point(bytes, at, same.hdr.red);
        at = put_point(bytes, at, same.hdr.green);
        at = put_point(bytes, at, same.hdr.blue);
        at = put_point(bytes, at, same.hdr.white);
        at = put_number(bytes, at, same.hdr.max_content_light_level);
        at = put_number(bytes, at, same.hdr.max_frame_average_light_level);
    }
    status = rtpw_write_color_space(space, it.buf, it.size, it.len);
    CHECK(was_written(it, status, same.range <= 3 && same.horizontal <= 2 && same.vertical <= 2, bytes, at));
    CHECK(memcmp(space, &same, sizeof same) == 0);
}

static void dependency_descriptor(void) {
    size_t len;
    const uint8_t *data = data_to_read(&len);
    rtpw_dependency_descriptor same, *read = some_struct(&outputs, &same, sizeof same);
    int32_t status = rtpw_read_dependency_descriptor(data, len, read);
    CHECK(status == (len >= 3 ? RTPW_OK : RTPW_BAD_FIELD) && are_unread(data, len));
    if (len >= 3) {
        same.start_of_frame = before[0] / 128;
        same.end_of_frame = before[0] / 64 % 2;
        same.template_id = before[0] % 64;
        same.frame_number = (uint16_t)number_at(before + 1);
    }
    CHECK(memcmp(read, &same, offsetof(rtpw_dependency_descriptor, template_id) + 1) == 0);
    CHECK(rtpw_has_structure(data, len) == (len >= 4 && before[3] >= 128) && are_unread(data, len));

    room it = some_room();
    rtpw_dependency_descriptor *sent = some_struct(&given, &same, sizeof same);
    make_flag(&sent->start_of_frame);
    make_flag(&sent->end_of_frame);
    sent->template_id = sent->template_id < 240 ? sent->template_id % 65 : sent->template_id;
    memcpy(&same, sent, sizeof same);
    uint8_t bytes[3];
    bytes[0] = (uint8_t)((same.start_of_frame != 0) * 128 + (same.end_of_frame != 0) * 64 + same.template_id % 64);
    put_number(bytes, 1, same.frame_number);
    status = rtpw_write_dependency_descriptor(sent, it.buf, it.size, it.len);
    CHECK(was_written(it, status, same.template_id <= 63, bytes, 3) && memcmp(sent, &same, sizeof same) == 0);
}

void standard_round(void) {
    if (inputs.size == 0) {
        inputs = memory_of(sizeof before);
        buffers = memory_of(sizeof before);
        given = memory_of(sizeof(rtpw_color_space));
        outputs = memory_of(sizeof(rtpw_color_space));
        lengths = memory_of(sizeof(size_t));
    }
    send_time();
    extend_send_time();
    transmission_offset();
    frame_marking();
    orientation();
    token();
    stream_id();
    timing();
    transport_number();
    mixer_levels();
    ntp(8, rtpw_read_ntp_64, rtpw_write_ntp_64);
    ntp(7, rtpw_read_ntp_56, rtpw_write_ntp_56);
    extend_ntp_56();
    color_space();
    dependency_descriptor();
}
