/* rtpw_wire_len_layers, rtpw_write_layers, rtpw_left_out_layers: against a writer that owes nothing to the library (video-layers-allocation00).
 * What was written is read again. */
#include "hostile.h"

#include "walk_values.h"

/* The longest that is written: a header of 15 sources, and 255 elements of 257 bytes. */
#define LONGEST_WRITTEN 65612

static memory buffers, maps, headers, allocations, lengths, outputs;

/* ---- Random layers ---- */

/* Mostly 0 to 4, and often enough 4. */
static uint8_t random_count(void) {
    uint64_t x = random_u64();
    return x % 256 == 0 ? (uint8_t)(x >> 8) : (uint8_t)(x / 256 % 5);
}

/* Mostly one that can be written: the first layers that are active have a resolution. */
static void random_layers(rtpw_layers *layers) {
    fill(layers, sizeof *layers);
    uint64_t x = random_u64();
    size_t resolutions = x % 20, narrow = x / 32 % 4 == 0 ? 64 : 48;
    layers->count = random_count();
    layers->current = x / 128 % 64 == 0 ? layers->current : layers->count == 0 ? 0 : x / 8192 % 4;
    bool are_alike = x / 32768 % 2 == 0;
    for (size_t s = 0; s < 4; s++) {
        layers->streams[s].count = are_alike && s > 0 ? layers->streams[0].count : random_count();
        for (size_t l = 0; l < 4; l++) {
            rtpw_layer *it = &layers->streams[s].layers[l];
            uint64_t y = random_u64();
            it->rates = random_count();
            for (size_t i = 0; i < 4; i++) {
                it->kbps[i] >>= y / 16 % 128 == 0 ? 0 : 1 + random_below(narrow) % 63;
            }
            bool has_one = s < layers->count && l < layers->streams[s].count && it->rates != 0 && resolutions != 0;
            it->has_resolution = y / 2048 % 128 == 0 ? it->has_resolution : !has_one ? 0 : y % 8 == 0 ? 7 : 1;
            resolutions -= has_one;
            it->width = y / 262144 % 128 == 0 ? 0 : it->width | (uint16_t)(y >> 40) % 2;
        }
    }
}

/* ---- What can be written, and as what bytes ---- */

static bool are_few(const rtpw_layers *it) {
    bool are = it->count <= 4;
    for (size_t s = 0; are && s < it->count; s++) {
        are = it->streams[s].count <= 4;
        for (size_t l = 0; are && l < it->streams[s].count; l++) {
            are = it->streams[s].layers[l].rates <= 4;
        }
    }
    return are;
}

/* The layers that are active, by rising stream and layer, and the mask of each stream. */
static size_t active_layers(const rtpw_layers *it, const rtpw_layer *active[16], unsigned masks[4]) {
    size_t count = 0;
    for (size_t s = 0; s < it->count; s++) {
        masks[s] = 0;
        for (size_t l = 0; l < it->streams[s].count; l++) {
            if (it->streams[s].layers[l].rates != 0) {
                masks[s] |= 1u << l;
                active[count++] = &it->streams[s].layers[l];
            }
        }
    }
    return count;
}

/* Whether the bytes can say each layer. */
static bool are_said(const rtpw_layers *it) {
    bool are = true, is_told = true;
    for (size_t s = 0; s < it->count; s++) {
        for (size_t l = 0; l < it->streams[s].count; l++) {
            const rtpw_layer *layer = &it->streams[s].layers[l];
            bool has_resolution = layer->has_resolution != 0;
            for (size_t i = 0; i < layer->rates; i++) {
                are = are && layer->kbps[i] >> 63 == 0;
            }
            if (has_resolution) {
                are = are && layer->rates != 0 && is_told && layer->width != 0 && layer->height != 0;
            } else if (layer->rates != 0) {
                is_told = false;
            }
        }
    }
    return are;
}

/* A first byte, and the masks where they aren't alike or are 0: half a byte for each. */
static size_t put_masks(const rtpw_layers *it, const unsigned masks[4], uint8_t *data) {
    unsigned shared = masks[0];
    size_t at = 1;
    for (size_t s = 1; s < it->count; s++) {
        shared = masks[s] == masks[0] ? shared : 0;
    }
    data[0] = (uint8_t)(it->current * 64u + (it->count - 1u) * 16u + shared);
    for (size_t s = 0; shared == 0 && s < it->count; s += 2) {
        /* the spare half is 0 after one mask, and 15 after three */
        data[at++] = (uint8_t)(masks[s] * 16 + (s + 1 < it->count ? masks[s + 1] : s == 0 ? 0 : 15));
    }
    return at;
}

/* Seven bits a byte, the low ones first; each byte but the last has the top bit. */
static size_t put_rate(uint64_t rate, uint8_t *data) {
    size_t at = 0;
    for (; rate > 127; rate >>= 7) {
        data[at++] = (uint8_t)(rate | 128);
    }
    data[at++] = (uint8_t)rate;
    return at;
}

/* How many bytes they take; 0 where no element can carry them. */
static size_t write_allocation(const rtpw_layers *it, uint8_t data[700]) {
    const rtpw_layer *active[16];
    unsigned masks[4];
    memset(data, 0, 700);
    if (!are_few(it) || !are_said(it) || it->current > (it->count == 0 ? 0 : 3)) {
        return 0;
    }
    if (it->count == 0) {
        return 1;
    }
    size_t count = active_layers(it, active, masks), at = put_masks(it, masks, data);
    for (size_t i = 0; i < count; i++) {
        data[at + i / 4] |= (uint8_t)((active[i]->rates - 1u) << (6 - i % 4 * 2));
    }
    at += (count + 3) / 4;
    for (size_t i = 0; i < count; i++) {
        for (size_t j = 0; j < active[i]->rates; j++) {
            at += put_rate(active[i]->kbps[j], data + at);
        }
    }
    for (size_t i = 0; i < count && active[i]->has_resolution != 0; i++, at += 5) {
        unsigned width = active[i]->width - 1u, height = active[i]->height - 1u;
        data[at] = (uint8_t)(width / 256);
        data[at + 1] = (uint8_t)width;
        data[at + 2] = (uint8_t)(height / 256);
        data[at + 3] = (uint8_t)height;
        data[at + 4] = active[i]->framerate;
    }
    return at <= 255 ? at : 0;
}

/* ---- What they are read as ---- */

/* The same, without the layers at the end of a stream that aren't active, and with zeros where nothing counts. */
static void as_read(const rtpw_layers *given, rtpw_layers *read) {
    memset(read, 0, sizeof *read);
    read->count = given->count;
    read->current = given->current;
    for (size_t s = 0; s < given->count; s++) {
        for (size_t l = 0; l < given->streams[s].count; l++) {
            const rtpw_layer *it = &given->streams[s].layers[l];
            rtpw_layer *layer = &read->streams[s].layers[l];
            if (it->rates != 0) {
                read->streams[s].count = (uint8_t)(l + 1);
            }
            layer->rates = it->rates;
            memcpy(layer->kbps, it->kbps, it->rates * sizeof *it->kbps);
            if (it->has_resolution != 0) {
                layer->has_resolution = 1;
                layer->width = it->width;
                layer->height = it->height;
                layer->framerate = it->framerate;
            }
        }
    }
}

static void layers_are_read(const rtpw_layers *given, const rtpw_header *header, const rtpw_map *map,
                            const uint8_t *bytes, size_t len) {
    static uint8_t again[LONGEST_WRITTEN];
    rtpw_header read;
    rtpw_layers layers, expected;
    size_t again_len;
    memset(&expected, 0, sizeof expected);
    bool is_there = header->has_extension != 0 && memchr(map->kind + 1, RTPW_KIND_LAYERS, 255) != NULL;
    if (is_there) {
        as_read(given, &expected);
    }
    CHECK(rtpw_parse_layers(bytes, len, map, &read, &layers) == RTPW_OK);
    CHECK(read.header_len == len && read.values.has_layers == is_there);
    CHECK(same_layers(&layers, &expected));
    CHECK(rtpw_write_layers(map, header, &layers, again, sizeof again, &again_len) == RTPW_OK);
    CHECK(again_len == len && memcmp(again, bytes, len) == 0);
}

/* ---- The calls ---- */

static size_t *length(size_t *before) {
    size_t *len = block_in(&lengths, sizeof *len);
    fill(len, sizeof *len);
    *before = *len;
    return len;
}

void layers_round(void) {
    static uint8_t written[LONGEST_WRITTEN], expected[LONGEST_WRITTEN + 8];
    uint8_t data[700];
    if (maps.size == 0) {
        buffers = memory_of(LONGEST_WRITTEN + 8);
        maps = memory_of(sizeof(rtpw_map));
        headers = memory_of(sizeof(rtpw_header));
        allocations = memory_of(sizeof(rtpw_layers));
        lengths = memory_of(sizeof(size_t));
        outputs = memory_of(sizeof(uint32_t));
    }
    rtpw_map *map = block_in(&maps, sizeof *map), same_map;
    sparse_map(map);
    if (random_u64() % 4 != 0) {
        map->kind[1 + random_below(255)] = RTPW_KIND_LAYERS;
    }
    memcpy(&same_map, map, sizeof same_map);
    rtpw_header *header = block_in(&headers, sizeof *header), same;
    random_header(header);
    memcpy(&same, header, sizeof same);
    rtpw_layers *layers = block_in(&allocations, sizeof *layers), same_given;
    random_layers(layers);
    memcpy(&same_given, layers, sizeof same_given);
    size_t data_len = write_allocation(&same_given, data), wanted = 0;
    bool is_writable = is_given(&same) && data_len != 0;
    if (is_writable) {
        wanted = write_fixed(&same, same.has_extension != 0, written);
        wanted += same.has_extension ? write_block(&same_map, &same.values, data, data_len, written + wanted) : 0;
    }

    size_t before, *len = length(&before);
    CHECK(rtpw_wire_len_layers(map, header, layers, len) == (is_writable ? RTPW_OK : RTPW_BAD_FIELD));
    CHECK(*len == (is_writable ? wanted : before));

    uint64_t x = random_u64();
    size_t size = x % 4 == 0 ? random_below(wanted + 1) : wanted + x / 4 % 8;
    uint8_t *buf = block_in(&buffers, size);
    fill(buf, size);
    memcpy(expected, buf, size);
    bool is_written = is_writable && size >= wanted;
    if (is_written) {
        memcpy(expected, written, wanted);
    }
    len = length(&before);
    int32_t status = rtpw_write_layers(map, header, layers, buf, size, len);
    CHECK(status == (is_written ? RTPW_OK : is_writable ? RTPW_SHORT_BUFFER : RTPW_BAD_FIELD));
    CHECK(*len == (is_written ? wanted : before));
    CHECK(memcmp(buf, expected, size) == 0);
    if (is_written) {
        layers_are_read(&same_given, &same, &same_map, buf, wanted);
    }
    uint32_t *kinds = block_in(&outputs, sizeof *kinds);
    *kinds = 0x80000001;
    CHECK(rtpw_left_out_layers(map, header, layers, kinds) == (is_writable ? RTPW_OK : RTPW_BAD_FIELD));
    CHECK(*kinds == (is_writable ? kinds_left(&same_map, &same, true) : 0x80000001));
    CHECK(memcmp(map, &same_map, sizeof same_map) == 0);
    CHECK(memcmp(header, &same, sizeof same) == 0);
    CHECK(memcmp(layers, &same_given, sizeof same_given) == 0);
}
