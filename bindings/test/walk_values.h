/* What the elements of a body say under a map, by a reading that owes nothing to the library: the documents
 * of the extensions, and for the layers video-layers-allocation00. */
#ifndef WALK_VALUES_H
#define WALK_VALUES_H

#include "../c/rtp_wire.h"
#include "walk.h"

#include <string.h>

static inline uint64_t number_in(const uint8_t *bytes, size_t width) {
    uint64_t number = 0;
    for (size_t i = 0; i < width; i++) {
        number = number * 256 + bytes[i];
    }
    return number;
}

/* How many bytes the first character has in UTF-8 (RFC 3629, 4); 0 where there is none. */
static inline size_t character_len(const uint8_t *text, size_t len) {
    unsigned first = text[0];
    size_t width = first < 0x80 ? 1 : first < 0xC2 ? 0 : first < 0xE0 ? 2 : first < 0xF0 ? 3 : first < 0xF5 ? 4 : 0;
    if (width == 0 || width > len) {
        return 0;
    }
    for (size_t i = 1; i < width; i++) {
        if (text[i] / 64 != 2) {
            return 0;
        }
    }
    bool is_short = (first == 0xE0 && text[1] < 0xA0) || (first == 0xF0 && text[1] < 0x90);
    bool is_outside = (first == 0xED && text[1] >= 0xA0) || (first == 0xF4 && text[1] >= 0x90);
    return is_short || is_outside ? 0 : width;
}

static inline bool is_letter_or_digit(uint8_t character) {
    return (character >= '0' && character <= '9') || (character >= 'A' && character <= 'Z') ||
           (character >= 'a' && character <= 'z');
}

/* The first characters of a text, an underscore for each that is no letter or digit; false where the bytes
 * are no UTF-8. */
static inline bool text_in(const uint8_t *data, size_t len, char *text, size_t room) {
    memset(text, 0, room);
    size_t count = 0;
    for (size_t at = 0; at < len; count++) {
        size_t width = character_len(data + at, len - at);
        if (width == 0) {
            return false;
        }
        if (count < room - 1) {
            text[count] = is_letter_or_digit(data[at]) ? (char)data[at] : '_';
        }
        at += width;
    }
    return true;
}

/* The data of a text give it, unless they are no text. */
static inline void put_text(const uint8_t *data, size_t len, char *text, size_t room, uint8_t *has) {
    char read[17];
    if (text_in(data, len, read, room)) {
        memcpy(text, read, room);
        *has = 1;
    }
}

/* A rate at the front, seven bits of each byte up to one below 128, at most nine; where it is cut short the
 * rate is 0, of no bytes. */
static inline uint64_t rate_at(const uint8_t *data, size_t len, size_t *at) {
    uint64_t rate = 0;
    for (size_t i = 0; i < 9 && *at + i < len; i++) {
        uint8_t byte = data[*at + i];
        rate |= (uint64_t)(byte % 128) << (7 * i);
        if (byte < 128 || i == 8) {
            *at += i + 1;
            return rate;
        }
    }
    return 0;
}

/* The layers of each stream by its mask, and those that are active, by rising stream and layer. */
static inline size_t lay_out(const unsigned masks[4], rtpw_layers *layers, rtpw_layer *active[16]) {
    size_t count = 0;
    for (size_t s = 0; s < layers->count; s++) {
        for (unsigned bit = 0; bit < 4; bit++) {
            if (masks[s] >> bit != 0) {
                layers->streams[s].count = (uint8_t)(bit + 1);
            }
            if (masks[s] >> bit & 1) {
                active[count++] = &layers->streams[s].layers[bit];
            }
        }
    }
    return count;
}

/* The allocation; false where the bytes are none. */
static inline bool layers_in(const uint8_t *data, size_t len, rtpw_layers *layers) {
    unsigned masks[4] = {0};
    rtpw_layer *active[16];
    memset(layers, 0, sizeof *layers);
    if (len == 0) {
        return false;
    }
    if (len == 1 && data[0] == 0) {
        return true;
    }
    layers->current = data[0] / 64;
    layers->count = (uint8_t)(data[0] / 16 % 4 + 1);
    size_t at = 1;
    size_t mask_bytes = data[0] % 16 != 0 ? 0 : (layers->count + 1u) / 2;
    if (len - at < mask_bytes) {
        return false;
    }
    for (size_t s = 0; s < layers->count; s++) {
        masks[s] = mask_bytes == 0 ? data[0] % 16u : s % 2 == 0 ? data[at + s / 2] / 16u : data[at + s / 2] % 16u;
    }
    at += mask_bytes;
    size_t count = lay_out(masks, layers, active);
    if (len - at < (count + 3) / 4) {
        return false;
    }
    for (size_t i = 0; i < count; i++) {
        active[i]->rates = (uint8_t)((data[at + i / 4] >> (6 - i % 4 * 2)) % 4 + 1);
    }
    at += (count + 3) / 4;
    for (size_t i = 0; i < count; i++) {
        for (size_t j = 0; j < active[i]->rates; j++) {
            active[i]->kbps[j] = rate_at(data, len, &at);
        }
    }
    for (size_t i = 0; i < count && len - at >= 5; i++, at += 5) {
        uint64_t width = number_in(data + at, 2) + 1, height = number_in(data + at + 2, 2) + 1;
        if (width > 65535 || height > 65535) {
            return false;
        }
        active[i]->has_resolution = 1;
        active[i]->width = (uint16_t)width;
        active[i]->height = (uint16_t)height;
        active[i]->framerate = data[at + 4];
    }
    return true;
}

static inline void put_capture_time(const uint8_t *data, size_t len, rtpw_values *values) {
    if (len >= 8) {
        uint64_t offset = len >= 16 ? number_in(data + 8, 8) : 0;
        values->has_capture_time = 1;
        values->capture_time = number_in(data, 8);
        values->has_capture_offset = len >= 16;
        memcpy(&values->capture_offset, &offset, sizeof offset);
    }
}

static inline void put_timing(const uint8_t *data, size_t len, rtpw_values *values) {
    if (len >= 9) {
        values->has_video_timing = 1;
        values->timing_flags = data[0];
        values->encode_start = (uint16_t)number_in(data + 1, 2);
        values->encode_finish = (uint16_t)number_in(data + 3, 2);
        values->packetize_complete = (uint16_t)number_in(data + 5, 2);
        values->last_left_pacer = (uint16_t)number_in(data + 7, 2);
    }
}

static inline void put_delays(const uint8_t *data, size_t len, rtpw_values *values) {
    if (len >= 3) {
        uint64_t delays = number_in(data, 3);
        values->has_playout_delay_min = values->has_playout_delay_max = 1;
        values->playout_delay_min.ticks = delays / 4096;
        values->playout_delay_max.ticks = delays % 4096;
        values->playout_delay_min.hertz = values->playout_delay_max.hertz = 100;
    }
}

/* What the data of an element of the kind say, where they are long enough for it. */
static inline void put_value(uint8_t kind, const uint8_t *data, size_t len, rtpw_values *values, rtpw_layers *layers) {
    static const uint16_t degrees[4] = {0, 270, 180, 90};
    rtpw_layers read;
    if (kind == RTPW_KIND_ABS_SEND_TIME && len >= 3) {
        values->has_send_time = 1;
        values->send_time = number_in(data, 3) * 1000000 / 262144;
    } else if (kind == RTPW_KIND_ABS_CAPTURE_TIME) {
        put_capture_time(data, len, values);
    } else if (kind == RTPW_KIND_AUDIO_LEVEL && len >= 1) {
        values->has_audio_level = values->has_voice_activity = 1;
        values->audio_level = (int8_t)(-(data[0] % 128));
        values->voice_activity = data[0] / 128;
    } else if (kind == RTPW_KIND_TRANSMISSION_OFFSET && len >= 4) {
        values->has_transmission_offset = 1;
        values->transmission_offset = (uint32_t)number_in(data, 4);
    } else if (kind == RTPW_KIND_VIDEO_ORIENTATION && len >= 1) {
        values->has_video_orientation = 1;
        values->video_orientation = degrees[data[0] % 4];
    } else if (kind == RTPW_KIND_TRANSPORT_NUMBER && len >= 2) {
        values->has_transport_number = 1;
        values->transport_number = (uint16_t)number_in(data, 2);
    } else if (kind == RTPW_KIND_PLAYOUT_DELAY) {
        put_delays(data, len, values);
    } else if (kind == RTPW_KIND_VIDEO_CONTENT_TYPE && len >= 1) {
        values->has_video_content_type = 1;
        values->video_content_type = data[0];
    } else if (kind == RTPW_KIND_VIDEO_TIMING) {
        put_timing(data, len, values);
    } else if (kind == RTPW_KIND_RID) {
        put_text(data, len, values->rid, sizeof values->rid, &values->has_rid);
    } else if (kind == RTPW_KIND_REPAIRED_RID) {
        put_text(data, len, values->repaired_rid, sizeof values->repaired_rid, &values->has_repaired_rid);
    } else if (kind == RTPW_KIND_MID) {
        put_text(data, len, values->mid, sizeof values->mid, &values->has_mid);
    } else if (kind == RTPW_KIND_FRAME_MARKING && len >= 4) {
        values->has_frame_marking = 1;
        values->frame_marking = (uint32_t)number_in(data, 4);
    } else if (kind == RTPW_KIND_LAYERS && layers_in(data, len, &read)) {
        values->has_layers = 1;
        *layers = read;
    }
}

/* What the elements of a body say. */
static inline void walk_values(const uint8_t *body, size_t len, int form, const rtpw_map *map, rtpw_values *values,
                               rtpw_layers *layers) {
    found it;
    memset(values, 0, sizeof *values);
    memset(layers, 0, sizeof *layers);
    for (size_t at = 0; walk_on(body, len, form, at, &it); at = it.data_at + it.data_len) {
        if (it.id != 0) {
            put_value(map->kind[it.id], body + it.data_at, it.data_len, values, layers);
        }
    }
}

/* The header that the bytes begin with, where walk() has found one. */
static inline void walk_header(const uint8_t *bytes, const walked *it, const rtpw_map *map, rtpw_header *header,
                               rtpw_layers *layers) {
    memset(header, 0, sizeof *header);
    walk_values(bytes + it->body_at, it->body_len, it->form, map, &header->values, layers);
    header->header_len = it->header_len;
    header->has_padding = bytes[0] / 32 % 2;
    header->has_extension = bytes[0] / 16 % 2;
    header->csrc_count = (uint8_t)it->csrc_count;
    header->marker = bytes[1] / 128;
    header->payload_type = bytes[1] % 128;
    header->sequence_number = (uint16_t)number_in(bytes + 2, 2);
    header->timestamp = (uint32_t)number_in(bytes + 4, 4);
    header->ssrc = (uint32_t)number_in(bytes + 8, 4);
    for (size_t i = 0; i < it->csrc_count; i++) {
        header->csrc[i] = (uint32_t)number_in(bytes + 12 + 4 * i, 4);
    }
}

/* ---- Structs without the bytes between and after their fields, which may hold anything ---- */

#define ZERO_FROM(it, last, size) memset((uint8_t *)(it) + (last), 0, (size) - (last))

static inline rtpw_values bare_values(const rtpw_values *values) {
    rtpw_values it;
    memcpy(&it, values, sizeof it);
    const size_t end = offsetof(rtpw_time, hertz) + sizeof(uint32_t);
    ZERO_FROM(&it.playout_delay_min, end, sizeof(rtpw_time));
    ZERO_FROM(&it.playout_delay_max, end, sizeof(rtpw_time));
    ZERO_FROM(&it, offsetof(rtpw_values, has_layers) + 1, sizeof it);
    return it;
}

static inline bool same_values(const rtpw_values *a, const rtpw_values *b) {
    rtpw_values x = bare_values(a), y = bare_values(b);
    return memcmp(&x, &y, sizeof x) == 0;
}

static inline bool same_headers(const rtpw_header *a, const rtpw_header *b) {
    const size_t end = offsetof(rtpw_header, has_extension) + 1;
    return memcmp(a, b, end) == 0 && same_values(&a->values, &b->values);
}

static inline bool same_layers(const rtpw_layers *a, const rtpw_layers *b) {
    bool are = a->count == b->count && a->current == b->current;
    for (size_t s = 0; s < 4; s++) {
        are = are && a->streams[s].count == b->streams[s].count;
        for (size_t l = 0; l < 4; l++) {
            const size_t end = offsetof(rtpw_layer, rates) + 1;
            are = are && memcmp(&a->streams[s].layers[l], &b->streams[s].layers[l], end) == 0;
        }
    }
    return are;
}

#endif
