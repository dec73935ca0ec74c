/* rtpw_wire_len, rtpw_write, rtpw_left_out, rtpw_data_of: against a writer that owes nothing to the library (RFC
 * 3550, 5.1; RFC 8285, 4.2 and 4.3; the documents of the extensions). What was written is read again. */
#include "hostile.h"

#include "walk_values.h"

/* The longest that is written: a header of 15 sources, and 255 elements of 18 bytes. */
#define LONGEST_WRITTEN 5000

static memory buffers, maps, headers, lengths, outputs;

static void put_number(uint8_t *bytes, size_t width, uint64_t number) {
    for (size_t i = 0; i < width; i++) {
        bytes[i] = (uint8_t)(number >> (8 * (width - 1 - i)));
    }
}

/* ---- A random header ---- */

static void random_text(char *text, size_t room) {
    static const char characters[] = "abcXYZ019_";
    size_t len = random_below(room);
    memset(text, 0, room);
    for (size_t i = 0; i < len; i++) {
        text[i] = characters[random_below(10)];
    }
    uint64_t x = random_u64();
    if (x % 64 == 0) {
        text[x / 64 % room] = (char)(x >> 32); /* another character, or a longer text */
    } else if (x % 64 == 1) {
        fill(text + len + 1, room - len - 1); /* what stands after the zero */
    } else if (x % 64 == 2) {
        memset(text, 'a', room); /* no zero */
    }
}

static void random_time(rtpw_time *time) {
    static const uint32_t clocks[6] = {1, 100, 1000, 48000, 90000, 1000000000};
    uint64_t x = random_u64();
    time->hertz = x % 8 == 0 ? (uint32_t)(x >> 32) : clocks[x / 8 % 6];
    time->hertz = x % 128 == 1 ? 0 : time->hertz;
    time->ticks = random_up_to_64_bits();
}

static void random_values(rtpw_values *values) {
    static const uint16_t degrees[4] = {0, 90, 180, 270};
    fill(values, sizeof *values);
    uint8_t *flags = &values->has_send_time;
    for (size_t i = 0; i < 17; i++) {
        flags[i] = flags[i] % 2 == 0 ? 0 : flags[i] % 8 == 1 ? flags[i] : 1;
    }
    random_time(&values->playout_delay_min);
    random_time(&values->playout_delay_max);
    random_text(values->mid, sizeof values->mid);
    random_text(values->rid, sizeof values->rid);
    random_text(values->repaired_rid, sizeof values->repaired_rid);
    if (random_u64() % 16 != 0) {
        values->audio_level = (int8_t) - (int)random_below(128);
    }
    if (values->video_orientation % 64 != 0) {
        values->video_orientation = degrees[values->video_orientation % 4];
    }
    if (random_u64() % 2 == 0) {
        values->send_time %= 128000000;
    }
}

void random_header(rtpw_header *header) {
    fill(header, sizeof *header);
    uint64_t x = random_u64();
    header->payload_type = x % 32 == 0 ? (uint8_t)(x >> 8) : header->payload_type % 128;
    header->csrc_count = x / 32 % 32 == 0 ? (uint8_t)(x >> 16) : header->csrc_count % 16;
    header->marker = header->marker % 4 == 0 ? header->marker : header->marker % 2;
    header->has_padding = header->has_padding % 4 == 0 ? header->has_padding : header->has_padding % 2;
    header->has_extension = x / 1024 % 8 == 0 ? 0 : x / 1024 % 8 == 1 ? (uint8_t)(x >> 24) : 1;
    random_values(&header->values);
}

void sparse_map(rtpw_map *map) {
    uint64_t x = random_u64();
    if (x % 8 == 0) {
        random_map(map);
        return;
    }
    memset(map, 0, sizeof *map);
    size_t count = x / 8 % 12;
    for (size_t i = 0; i < count; i++) {
        size_t id = x / 128 % 2 == 0 ? random_below(15) : random_below(256);
        map->kind[id] = (uint8_t)(x / 256 % 2 == 0 ? random_below(15) : random_below(23));
    }
}

/* ---- What may be written ---- */

static bool is_text(const char *text, size_t room) {
    size_t len = 0;
    while (len < room && (is_letter_or_digit((uint8_t)text[len]) || text[len] == '_')) {
        len++;
    }
    return len < room && text[len] == '\0';
}

static bool are_given(const rtpw_values *it) {
    uint16_t turn = it->video_orientation;
    return (it->has_video_orientation == 0 || turn == 0 || turn == 90 || turn == 180 || turn == 270) &&
           (it->has_audio_level == 0 || (it->audio_level <= 0 && it->audio_level >= -127)) &&
           (it->has_playout_delay_min == 0 || it->playout_delay_min.hertz != 0) &&
           (it->has_playout_delay_max == 0 || it->playout_delay_max.hertz != 0) &&
           (it->has_mid == 0 || is_text(it->mid, sizeof it->mid)) &&
           (it->has_rid == 0 || is_text(it->rid, sizeof it->rid)) &&
           (it->has_repaired_rid == 0 || is_text(it->repaired_rid, sizeof it->repaired_rid));
}

bool is_given(const rtpw_header *header) {
    return header->payload_type < 128 && header->csrc_count < 16 && are_given(&header->values);
}

/* ---- The bytes ---- */

/* Whole hundredths of a second, modulo 4,096. */
static uint64_t hundredths(const rtpw_time *time) {
    uint64_t hertz = time->hertz, seconds = time->ticks / hertz, rest = time->ticks % hertz;
    return (seconds % 4096 * 100 + rest * 100 / hertz) % 4096;
}

/* The data of an element that says times; how many they are, or -1 where there is no value. */
static int times_of(uint8_t kind, const rtpw_values *it, uint8_t data[17]) {
    if (kind == RTPW_KIND_ABS_SEND_TIME && it->has_send_time) {
        put_number(data, 3, it->send_time % 64000000 * 262144 / 1000000);
        return 3;
    }
    if (kind == RTPW_KIND_ABS_CAPTURE_TIME && it->has_capture_time) {
        put_number(data, 8, it->capture_time);
        put_number(data + 8, 8, (uint64_t)it->capture_offset);
        return it->has_capture_offset ? 16 : 8;
    }
    if (kind == RTPW_KIND_TRANSMISSION_OFFSET && it->has_transmission_offset) {
        put_number(data, 4, it->transmission_offset);
        return 4;
    }
    if (kind == RTPW_KIND_PLAYOUT_DELAY && it->has_playout_delay_min && it->has_playout_delay_max) {
        put_number(data, 3, hundredths(&it->playout_delay_min) * 4096 + hundredths(&it->playout_delay_max));
        return 3;
    }
    if (kind == RTPW_KIND_VIDEO_TIMING && it->has_video_timing) {
        data[0] = it->timing_flags;
        put_number(data + 1, 2, it->encode_start);
        put_number(data + 3, 2, it->encode_finish);
        put_number(data + 5, 2, it->packetize_complete);
        put_number(data + 7, 2, it->last_left_pacer);
        return 13;
    }
    return -1;
}

static int text_of(uint8_t kind, const rtpw_values *it, uint8_t data[17]) {
    bool has = kind == RTPW_KIND_RID ? it->has_rid : kind == RTPW_KIND_MID ? it->has_mid : it->has_repaired_rid;
    const char *text = kind == RTPW_KIND_RID ? it->rid : kind == RTPW_KIND_MID ? it->mid : it->repaired_rid;
    if (!has) {
        return -1;
    }
    size_t len = strlen(text);
    memcpy(data, text, len);
    return (int)len;
}

/* The same of an element of any kind. */
static int data_of(uint8_t kind, const rtpw_values *it, uint8_t data[17]) {
    memset(data, 0, 17);
    if (kind == RTPW_KIND_RID || kind == RTPW_KIND_REPAIRED_RID || kind == RTPW_KIND_MID) {
        return text_of(kind, it, data);
    }
    if (kind == RTPW_KIND_AUDIO_LEVEL && it->has_audio_level && it->has_voice_activity) {
        data[0] = (uint8_t)((it->voice_activity != 0 ? 128 : 0) - it->audio_level);
        return 1;
    }
    if (kind == RTPW_KIND_VIDEO_ORIENTATION && it->has_video_orientation) {
        data[0] = (uint8_t)((360 - it->video_orientation) / 90 % 4);
        return 1;
    }
    if (kind == RTPW_KIND_TRANSPORT_NUMBER && it->has_transport_number) {
        put_number(data, 2, it->transport_number);
        return 2;
    }
    if (kind == RTPW_KIND_VIDEO_CONTENT_TYPE && it->has_video_content_type) {
        data[0] = it->video_content_type;
        return 1;
    }
    if (kind == RTPW_KIND_FRAME_MARKING && it->has_frame_marking) {
        put_number(data, 4, it->frame_marking);
        return 4;
    }
    return times_of(kind, it, data);
}

/* The form that serves for each mapped id. */
static int form_for(const rtpw_map *map, const rtpw_values *values) {
    uint8_t data[17];
    for (size_t id = 1; id < 256; id++) {
        uint8_t kind = map->kind[id];
        if (kind != 0 && kind <= 15 && (id > 14 || kind == RTPW_KIND_LAYERS || data_of(kind, values, data) == 0)) {
            return 2;
        }
    }
    return 1;
}

size_t write_block(const rtpw_map *map, const rtpw_values *values, const uint8_t *allocation, size_t allocation_len,
                   uint8_t *bytes) {
    int form = form_for(map, values);
    size_t at = 4;
    for (size_t id = 1; id < 256; id++) {
        uint8_t own[17];
        const uint8_t *data = own;
        int len = data_of(map->kind[id], values, own);
        if (map->kind[id] == RTPW_KIND_LAYERS && allocation_len != 0) {
            data = allocation;
            len = (int)allocation_len;
        }
        if (len < 0) {
            continue;
        }
        if (form == 1) {
            bytes[at++] = (uint8_t)(id * 16 + (size_t)len - 1);
        } else {
            bytes[at++] = (uint8_t)id;
            bytes[at++] = (uint8_t)len;
        }
        memcpy(bytes + at, data, (size_t)len);
        at += (size_t)len;
    }
    while (at % 4 != 0) {
        bytes[at++] = 0;
    }
    put_number(bytes, 2, form == 1 ? 0xBEDE : 0x1000);
    put_number(bytes + 2, 2, at / 4 - 1);
    return at;
}

size_t write_fixed(const rtpw_header *header, bool has_extension, uint8_t *bytes) {
    bytes[0] = (uint8_t)(0x80 + (header->has_padding ? 0x20 : 0) + (has_extension ? 0x10 : 0) + header->csrc_count);
    bytes[1] = (uint8_t)((header->marker ? 0x80 : 0) + header->payload_type);
    put_number(bytes + 2, 2, header->sequence_number);
    put_number(bytes + 4, 4, header->timestamp);
    put_number(bytes + 8, 4, header->ssrc);
    for (size_t i = 0; i < header->csrc_count; i++) {
        put_number(bytes + 12 + 4 * i, 4, header->csrc[i]);
    }
    return 12 + 4u * header->csrc_count;
}

/* ---- What they are read as ---- */

static bool is_mapped(const rtpw_map *map, uint8_t kind) {
    return memchr(map->kind + 1, kind, 255) != NULL;
}

/* A value that is given and mapped is read as this, and else it is absent. */
#define IS_READ(name, kind, is_given, as) \
    do { \
        bool is_there = (is_given) && is_mapped(map, kind); \
        CHECK(read->has_##name == is_there); \
        CHECK(read->name == (is_there ? (as) : 0)); \
    } while (0)

static void times_are_read(const rtpw_values *given, const rtpw_map *map, const rtpw_values *read) {
    bool has_delays = given->has_playout_delay_min && given->has_playout_delay_max;
    bool are_delayed = has_delays && is_mapped(map, RTPW_KIND_PLAYOUT_DELAY);
    bool is_timed = given->has_video_timing && is_mapped(map, RTPW_KIND_VIDEO_TIMING);
    uint64_t ticks = given->send_time % 64000000 * 262144 / 1000000;
    IS_READ(send_time, RTPW_KIND_ABS_SEND_TIME, given->has_send_time, ticks * 1000000 / 262144);
    IS_READ(capture_time, RTPW_KIND_ABS_CAPTURE_TIME, given->has_capture_time, given->capture_time);
    IS_READ(capture_offset, RTPW_KIND_ABS_CAPTURE_TIME, given->has_capture_time && given->has_capture_offset,
            given->capture_offset);
    IS_READ(transmission_offset, RTPW_KIND_TRANSMISSION_OFFSET, given->has_transmission_offset,
            given->transmission_offset);
    CHECK(read->has_playout_delay_min == are_delayed && read->has_playout_delay_max == are_delayed);
    CHECK(read->playout_delay_min.ticks == (are_delayed ? hundredths(&given->playout_delay_min) : 0));
    CHECK(read->playout_delay_max.ticks == (are_delayed ? hundredths(&given->playout_delay_max) : 0));
    CHECK(read->has_video_timing == is_timed);
    CHECK(read->timing_flags == (is_timed ? given->timing_flags : 0));
    CHECK(read->encode_start == (is_timed ? given->encode_start : 0));
    CHECK(read->encode_finish == (is_timed ? given->encode_finish : 0));
    CHECK(read->packetize_complete == (is_timed ? given->packetize_complete : 0));
    CHECK(read->last_left_pacer == (is_timed ? given->last_left_pacer : 0));
}

static void values_are_read(const rtpw_values *given, const rtpw_map *map, const rtpw_values *read) {
    bool has_level = given->has_audio_level && given->has_voice_activity;
    IS_READ(audio_level, RTPW_KIND_AUDIO_LEVEL, has_level, given->audio_level);
    IS_READ(voice_activity, RTPW_KIND_AUDIO_LEVEL, has_level, given->voice_activity != 0);
    IS_READ(frame_marking, RTPW_KIND_FRAME_MARKING, given->has_frame_marking, given->frame_marking);
    IS_READ(transport_number, RTPW_KIND_TRANSPORT_NUMBER, given->has_transport_number, given->transport_number);
    IS_READ(video_orientation, RTPW_KIND_VIDEO_ORIENTATION, given->has_video_orientation, given->video_orientation);
    IS_READ(video_content_type, RTPW_KIND_VIDEO_CONTENT_TYPE, given->has_video_content_type, given->video_content_type);
    CHECK(read->has_mid == (given->has_mid && is_mapped(map, RTPW_KIND_MID)));
    CHECK(strcmp(read->mid, read->has_mid ? given->mid : "") == 0);
    CHECK(read->has_rid == (given->has_rid && is_mapped(map, RTPW_KIND_RID)));
    CHECK(strcmp(read->rid, read->has_rid ? given->rid : "") == 0);
    CHECK(read->has_repaired_rid == (given->has_repaired_rid && is_mapped(map, RTPW_KIND_REPAIRED_RID)));
    CHECK(strcmp(read->repaired_rid, read->has_repaired_rid ? given->repaired_rid : "") == 0);
    CHECK(read->has_layers == 0);
    times_are_read(given, map, read);
}

static void header_is_read(const rtpw_header *given, const rtpw_map *map, const uint8_t *bytes, size_t len) {
    rtpw_header read;
    CHECK(rtpw_parse(bytes, len, map, &read) == RTPW_OK);
    CHECK(read.header_len == len);
    CHECK(read.timestamp == given->timestamp && read.ssrc == given->ssrc);
    CHECK(read.sequence_number == given->sequence_number && read.payload_type == given->payload_type);
    CHECK(read.marker == (given->marker != 0) && read.has_padding == (given->has_padding != 0));
    CHECK(read.has_extension == (given->has_extension != 0));
    CHECK(read.csrc_count == given->csrc_count);
    for (size_t i = 0; i < 15; i++) {
        CHECK(read.csrc[i] == (i < given->csrc_count ? given->csrc[i] : 0));
    }
    if (given->has_extension) {
        values_are_read(&given->values, map, &read.values);
    } else {
        rtpw_values none;
        memset(&none, 0, sizeof none);
        CHECK(same_values(&read.values, &none));
    }
}

/* ---- What is left out ---- */

/* Whether a field of the kind is there. */
static bool is_there(size_t kind, const rtpw_values *it) {
    const uint8_t there[16] = {
        0,
        it->has_send_time,
        it->has_capture_time | it->has_capture_offset,
        it->has_audio_level | it->has_voice_activity,
        it->has_transmission_offset,
        it->has_video_orientation,
        it->has_transport_number,
        it->has_playout_delay_min | it->has_playout_delay_max,
        it->has_video_content_type,
        it->has_video_timing,
        it->has_rid,
        it->has_repaired_rid,
        it->has_mid,
        it->has_frame_marking,
        0,
        it->has_layers,
    };
    return there[kind] != 0;
}

uint32_t kinds_left(const rtpw_map *map, const rtpw_header *header, bool with_layers) {
    uint32_t kinds = 0;
    for (uint8_t kind = 1; kind < 16; kind++) {
        uint8_t data[17];
        bool is_layers = with_layers && kind == RTPW_KIND_LAYERS;
        bool has_data = is_layers || data_of(kind, &header->values, data) >= 0;
        if ((is_layers || is_there(kind, &header->values)) &&
            !(header->has_extension != 0 && is_mapped(map, kind) && has_data)) {
            kinds |= 1u << kind;
        }
    }
    return kinds;
}

/* ---- The calls ---- */

static size_t *length(size_t *before) {
    size_t *len = block_in(&lengths, sizeof *len);
    fill(len, sizeof *len);
    *before = *len;
    return len;
}

/* The data of one kind, of any number. */
static void one_value(const rtpw_values *values) {
    uint8_t written[17], expected[24];
    uint64_t x = random_u64();
    uint8_t kind = (uint8_t)(x % 8 == 0 ? x >> 8 : 1 + x / 1024 % 21);
    int32_t due = RTPW_BAD_FIELD;
    size_t wanted = 0;
    if (kind != 0 && (kind <= 20 || kind >= 128) && are_given(values)) {
        int len = data_of(kind, values, written);
        due = len < 0 ? RTPW_NONE : RTPW_OK;
        wanted = len < 0 ? 0 : (size_t)len;
    }
    size_t size = x / 128 % 4 == 0 ? x / 512 % (wanted + 1) : wanted + x / 512 % 8;
    due = due == RTPW_OK && size < wanted ? RTPW_SHORT_BUFFER : due;
    uint8_t *buf = block_in(&buffers, size);
    fill(buf, size);
    memcpy(expected, buf, size);
    if (due == RTPW_OK) {
        memcpy(expected, written, wanted);
    }
    rtpw_values *given = block_in(&headers, sizeof *given);
    memcpy(given, values, sizeof *given);
    size_t before, *len = length(&before);
    CHECK(rtpw_data_of(kind, given, buf, size, len) == due);
    CHECK(*len == (due == RTPW_OK ? wanted : before));
    CHECK(memcmp(buf, expected, size) == 0);
    CHECK(memcmp(given, values, sizeof *given) == 0);
}

void writing_round(void) {
    static uint8_t written[LONGEST_WRITTEN], expected[LONGEST_WRITTEN + 8];
    if (maps.size == 0) {
        buffers = memory_of(LONGEST_WRITTEN + 8);
        maps = memory_of(sizeof(rtpw_map));
        headers = memory_of(sizeof(rtpw_header));
        lengths = memory_of(sizeof(size_t));
        outputs = memory_of(sizeof(uint32_t));
    }
    rtpw_map *map = block_in(&maps, sizeof *map), same_map;
    sparse_map(map);
    memcpy(&same_map, map, sizeof same_map);
    rtpw_header *header = block_in(&headers, sizeof *header), same;
    random_header(header);
    memcpy(&same, header, sizeof same);
    bool is_writable = is_given(&same);
    size_t wanted = 0;
    if (is_writable) {
        wanted = write_fixed(&same, same.has_extension != 0, written);
        wanted += same.has_extension ? write_block(&same_map, &same.values, NULL, 0, written + wanted) : 0;
    }

    size_t before, *len = length(&before);
    CHECK(rtpw_wire_len(map, header, len) == (is_writable ? RTPW_OK : RTPW_BAD_FIELD));
    CHECK(*len == (is_writable ? wanted : before));

    uint64_t x = random_u64();
    size_t size = x % 4 == 0 ? random_below(wanted + 1) : wanted + x / 4 % 8;
    uint8_t *buf = block_in(&buffers, size);
    fill(buf, size);
    memcpy(expected, buf, size);
    bool is_written = is_writable && size >= wanted;
    if (is_written) {
        memcpy(expected, written, wanted);
    }
    len = length(&before);
    int32_t status = rtpw_write(map, header, buf, size, len);
    CHECK(status == (is_written ? RTPW_OK : is_writable ? RTPW_SHORT_BUFFER : RTPW_BAD_FIELD));
    CHECK(*len == (is_written ? wanted : before));
    CHECK(memcmp(buf, expected, size) == 0);
    if (is_written) {
        header_is_read(&same, &same_map, buf, wanted);
    }
    uint32_t *kinds = block_in(&outputs, sizeof *kinds);
    *kinds = 0x80000001;
    CHECK(rtpw_left_out(map, header, kinds) == (is_writable ? RTPW_OK : RTPW_BAD_FIELD));
    CHECK(*kinds == (is_writable ? kinds_left(&same_map, &same, false) : 0x80000001));
    CHECK(memcmp(map, &same_map, sizeof same_map) == 0);
    CHECK(memcmp(header, &same, sizeof same) == 0);
    one_value(&same.values);
}
