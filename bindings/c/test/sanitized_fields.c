/* What MemorySanitizer tells of the fields of the structs that the calls of rtp_wire.h are given: of each byte of a
 * field that a call looks at, where that byte alone isn't set, and of no other field. Which are looked at is what
 * rtp_wire.h says of each struct. Prints how many bytes were tried, or the first of which it is told wrongly. */
#include <stddef.h>
#include <string.h>

#include "../rtp_wire.h"
#include "told.h"

/* One source, a block of the one-byte form with the element 3 of two bytes, and a payload of 3 bytes, with padding
 * of 1. */
static const uint8_t datagram[] = {0xb1, 111, 1,    2,    0, 0, 3,    4, 0, 0, 0, 44, 0, 0,
                                   0,    9,   0xbe, 0xde, 0, 1, 0x31, 8, 9, 0, 7, 8,  1};
enum { LEN = sizeof datagram };
static uint8_t buf[64];
static int tried;

/* It is told of each of these bytes, or of none of them. */
static void bytes(const char *name, const void *at, size_t size, void (*call)(void), int told) {
    for (size_t i = 0; i < size; i++) {
        const uint8_t *byte = (const uint8_t *)at + i;
        tried++;
        __msan_poison(byte, 1);
        if (is_told(call) != told) {
            printf("%s, the byte %d: %s told of it\n", name, (int)i, told ? "it isn't" : "it is");
            exit(1);
        }
        __msan_unpoison(byte, 1);
    }
}
#define TOLD(field, call) bytes(#field ", " #call, &(field), sizeof(field), call, 1)
#define QUIET(field, call) bytes(#field ", " #call, &(field), sizeof(field), call, 0)

static void ignore(int32_t status) {
    (void)status;
}

static rtpw_fields fields;
static rtpw_map map;
static rtpw_new_ids ids;
static rtpw_header header;
static rtpw_layers layers;
static rtpw_element element;
static rtpw_frame_marking marking;
static rtpw_timing timing;
static rtpw_transport_number number;
static rtpw_color_space space;
static rtpw_orientation orientation;
static rtpw_dependency_descriptor descriptor;
static rtpw_receiver receiver;
static rtpw_wide_receiver wide;
static uint64_t words[2];
static rtpw_report report;

static void set_fields(void) {
    ignore(rtpw_set_fields(buf, LEN, &fields));
}
static void parse(void) {
    rtpw_header to;
    ignore(rtpw_parse(datagram, LEN, &map, &to));
}
static void renumber(void) {
    ignore(rtpw_renumber(buf, LEN, &ids));
}
static void write_header(void) {
    size_t to;
    ignore(rtpw_wire_len(&map, &header, &to));
}
static void write_layers(void) {
    size_t to;
    ignore(rtpw_wire_len_layers(&map, &header, &layers, &to));
}
static void write_elements(void) {
    size_t to;
    ignore(rtpw_write_elements(datagram, LEN, &element, 1, RTPW_ONE_BYTE_FORM, buf, sizeof buf, &to));
}
#define WRITES(value, name) \
    static void write_##name(void) { \
        size_t to; \
        ignore(rtpw_write_##name(&value, buf, sizeof buf, &to)); \
    }
WRITES(marking, frame_marking)
WRITES(timing, timing)
WRITES(number, transport_number)
WRITES(space, color_space)
WRITES(orientation, orientation)
WRITES(descriptor, dependency_descriptor)
static const uint8_t template_header[24] = {0x90, 96,   0, 5, 0,    0,    0,    100, 0, 0, 0, 44,
                                            0xBE, 0xDE, 0, 2, 0x30, 0xAA, 0x41, 0,   7, 0, 0, 0};
static rtpw_template made;
static rtpw_routed_header routed[2];
static uint8_t given[256];
static void write_headers(void) {
    uint8_t headers[50];
    ignore(rtpw_write_headers(&made, template_header, 24, given, 4, routed, 2, headers, sizeof headers));
}
static void make_template(void) {
    uint8_t to[400];
    rtpw_template it;
    ignore(rtpw_make_template(datagram, LEN, &ids, given, 4, &element, 1, RTPW_ANY_FORM, to, sizeof to, &it));
}
static void write_given(void) {
    size_t to;
    ignore(rtpw_write_elements(given, 4, &element, 1, RTPW_ONE_BYTE_FORM, buf, sizeof buf, &to));
}
static void write_with(void) {
    size_t to;
    ignore(rtpw_write_with(&header, given, 4, &element, 1, buf, sizeof buf, &to));
}
static void put_given(void) {
    uint8_t packet[LEN + 8];
    size_t to = LEN;
    memcpy(packet, datagram, LEN);
    ignore(rtpw_put_element(packet, sizeof packet, &to, 3, given, 4, RTPW_ANY_FORM));
}
static void put_block(void) {
    uint8_t packet[LEN + 8];
    size_t to = LEN;
    memcpy(packet, datagram, LEN);
    ignore(rtpw_put_block(packet, sizeof packet, &to, 0xabac, given, 4));
}
static size_t given_len;
static void is_token(void) {
    (void)rtpw_is_token(given, given_len);
}
static void is_stream_id(void) {
    (void)rtpw_is_stream_id(given, given_len);
}
static void accepts(void) {
    (void)rtpw_receiver_accepts(&receiver, 5);
}
static void wide_accepts(void) {
    (void)rtpw_wide_receiver_accepts(&wide, words, 2, 5);
}
static void wide_standing(void) {
    (void)rtpw_wide_receiver_standing_of(&wide, words, 2, 5);
}
static void wide_record(void) {
    rtpw_wide_receiver it = wide;
    ignore(rtpw_wide_receiver_record(&it, words, 2, 5));
}
static void wide_receive(void) {
    rtpw_wide_receiver it = wide;
    uint64_t to;
    ignore(rtpw_wide_receiver_receive(&it, words, 2, 5, &to));
}
static rtpw_wide_restarting_receiver restarting;
static void wide_restarting(void) {
    rtpw_wide_restarting_receiver it = restarting;
    uint64_t to;
    ignore(rtpw_wide_restarting_receive(&it, words, 2, 5, &to));
}
static void write_report(void) {
    size_t to;
    ignore(rtpw_write_report(&report, 1, 2, 3, buf, sizeof buf, &to));
}
static void from_retransmission(void) {
    uint8_t packet[LEN];
    size_t to = LEN;
    memcpy(packet, buf, LEN); /* also what isn't set of them */
    ignore(rtpw_from_retransmission(packet, LEN, &to, 1, 2, &ids));
}

static void fields_of_a_packet(void) {
    memcpy(buf, datagram, LEN);
    TOLD(fields.has_timestamp, set_fields);
    TOLD(fields.has_ssrc, set_fields);
    TOLD(fields.has_sequence_number, set_fields);
    TOLD(fields.has_payload_type, set_fields);
    TOLD(fields.has_marker, set_fields);
    for (int has = 0; has <= 1; has++) {
        memset(&fields.has_timestamp, has, 5);
        bytes("timestamp", &fields.timestamp, 4, set_fields, has);
        bytes("ssrc", &fields.ssrc, 4, set_fields, has);
        bytes("sequence_number", &fields.sequence_number, 2, set_fields, has);
        bytes("payload_type", &fields.payload_type, 1, set_fields, has);
        bytes("marker", &fields.marker, 1, set_fields, has);
    }
}

/* The id 0 is padding's, and means nothing. */
static void entries(void) {
    QUIET(map.kind[0], parse);
    bytes("a map", map.kind + 1, 255, parse, 1);
    QUIET(ids.id[0], renumber);
    bytes("new ids", ids.id + 1, 255, renumber, 1);
}

static void values(void) {
    rtpw_values *it = &header.values;
    const struct {
        const char *name;
        void *at;
        size_t size;
        uint8_t *has;
    } rows[] = {
        {"send_time", &it->send_time, 8, &it->has_send_time},
        {"capture_time", &it->capture_time, 8, &it->has_capture_time},
        {"capture_offset", &it->capture_offset, 8, &it->has_capture_offset},
        {"transmission_offset", &it->transmission_offset, 4, &it->has_transmission_offset},
        {"frame_marking", &it->frame_marking, 4, &it->has_frame_marking},
        {"transport_number", &it->transport_number, 2, &it->has_transport_number},
        {"video_orientation", &it->video_orientation, 2, &it->has_video_orientation},
        {"video_content_type", &it->video_content_type, 1, &it->has_video_content_type},
        {"audio_level", &it->audio_level, 1, &it->has_audio_level},
        {"voice_activity", &it->voice_activity, 1, &it->has_voice_activity},
        {"ticks, least", &it->playout_delay_min.ticks, 8, &it->has_playout_delay_min},
        {"hertz, least", &it->playout_delay_min.hertz, 4, &it->has_playout_delay_min},
        {"ticks, most", &it->playout_delay_max.ticks, 8, &it->has_playout_delay_max},
        {"hertz, most", &it->playout_delay_max.hertz, 4, &it->has_playout_delay_max},
        {"encode_start", &it->encode_start, 2, &it->has_video_timing},
        {"encode_finish", &it->encode_finish, 2, &it->has_video_timing},
        {"packetize_complete", &it->packetize_complete, 2, &it->has_video_timing},
        {"last_left_pacer", &it->last_left_pacer, 2, &it->has_video_timing},
        {"timing_flags", &it->timing_flags, 1, &it->has_video_timing},
        {"mid", it->mid, 3, &it->has_mid}, /* with the zero behind it */
        {"rid", it->rid, 9, &it->has_rid},
        {"repaired_rid", it->repaired_rid, 1, &it->has_repaired_rid},
    };
    header.has_extension = 1;
    it->playout_delay_min.hertz = it->playout_delay_max.hertz = 100;
    memcpy(it->mid, "ab", 2);
    memcpy(it->rid, "12345678", 8);
    for (size_t i = 0; i < sizeof rows / sizeof *rows; i++) {
        for (int has = 1; has >= 0; has--) {
            *rows[i].has = (uint8_t)has;
            bytes(rows[i].name, rows[i].at, rows[i].size, write_header, has);
            bytes(rows[i].name, rows[i].has, 1, write_header, 1);
        }
        *rows[i].has = 1;
    }
    bytes("behind a mid", it->mid + 3, sizeof it->mid - 3, write_header, 0);
    TOLD(header.timestamp, write_header);
    TOLD(header.ssrc, write_header);
    TOLD(header.sequence_number, write_header);
    TOLD(header.payload_type, write_header);
    TOLD(header.csrc_count, write_header);
    TOLD(header.marker, write_header);
    TOLD(header.has_padding, write_header);
    TOLD(header.has_extension, write_header);
    QUIET(header.header_len, write_header);
    header.csrc_count = 2;
    bytes("sources", header.csrc, 8, write_header, 1);
    bytes("sources behind them", header.csrc + 2, sizeof header.csrc - 8, write_header, 0);
}

static void streams(void) {
    rtpw_layer *it = &layers.streams[0].layers[0];
    layers.count = layers.streams[0].count = 1;
    it->rates = 2;
    it->width = it->height = 9;
    TOLD(layers.count, write_layers);
    TOLD(layers.current, write_layers);
    TOLD(layers.streams[0].count, write_layers);
    TOLD(it->rates, write_layers);
    TOLD(it->has_resolution, write_layers);
    bytes("rates", it->kbps, 16, write_layers, 1);
    bytes("rates behind them", it->kbps + 2, 16, write_layers, 0);
    for (int has = 0; has <= 1; has++) {
        it->has_resolution = (uint8_t)has;
        bytes("width", &it->width, 2, write_layers, has);
        bytes("height", &it->height, 2, write_layers, has);
        bytes("framerate", &it->framerate, 1, write_layers, has);
    }
    QUIET(layers.streams[0].layers[1], write_layers);
    QUIET(layers.streams[1], write_layers);
    QUIET(header.values.has_layers, write_layers); /* the layers are given beside it */
}

static void standards(void) {
    for (int has = 0; has <= 1; has++) {
        marking.has_layers = timing.has_flags = number.has_request = space.has_hdr = (uint8_t)has;
        number.packets = 1;
        bytes("a marking", &marking.start, 5, write_frame_marking, 1);
        bytes("layers of a marking", &marking.base_layer_sync, 4, write_frame_marking, has);
        bytes("its index", &marking.tl0_pic_idx, 1, write_frame_marking, 0);
        bytes("times", &timing.encode_start, 12, write_timing, 1);
        bytes("has_flags", &timing.has_flags, 1, write_timing, 1);
        bytes("flags", &timing.flags, 1, write_timing, has);
        bytes("number", &number.number, 2, write_transport_number, 1);
        bytes("has_request", &number.has_request, 1, write_transport_number, 1);
        bytes("packets", &number.packets, 2, write_transport_number, has);
        bytes("timestamps", &number.timestamps, 1, write_transport_number, has);
        bytes("colors", &space.primaries, 7, write_color_space, 1);
        bytes("HDR metadata", &space.hdr, 24, write_color_space, has);
    }
    marking.has_tl0_pic_idx = 1;
    TOLD(marking.tl0_pic_idx, write_frame_marking);
    TOLD(orientation, write_orientation);
    bytes("a descriptor", &descriptor, 5, write_dependency_descriptor, 1);
    TOLD(report.fraction_lost, write_report);
    TOLD(report.cumulative_lost, write_report);
    TOLD(report.extended_highest, write_report);
    TOLD(report.jitter, write_report);
}

/* Of elements that are written, and of what they are. */
static void elements(void) {
    element.data_len = 2;
    element.data_at = 1;
    element.id = 3;
    TOLD(element.data_at, write_elements);
    TOLD(element.data_len, write_elements);
    TOLD(element.id, write_elements);
    QUIET(element.end, write_elements);
    void (*const calls[])(void) = {write_given, write_with, make_template};
    for (size_t i = 0; i < sizeof calls / sizeof *calls; i++) {
        bytes("before the data", given, 1, calls[i], 0);
        bytes("the data", given + 1, 2, calls[i], 1);
        bytes("behind the data", given + 3, 1, calls[i], 0);
    }
    bytes("data of an element that is put", given, 4, put_given, 1);
    bytes("a body", given, 4, put_block, 1);
    memset(given, 'a', sizeof given);
    void (*const texts[])(void) = {is_token, is_stream_id};
    for (size_t i = 0; i < 2; i++) {
        given_len = 255;
        bytes("a text", given, 255, texts[i], 1);
        given_len = 256;
        bytes("one that is too long", given, 256, texts[i], 0);
    }
}

/* Of each receiver of a group. */
static void receivers_of_a_group(void) {
    made.header_len = 24;
    made.data_at[0] = 19;
    made.data_len[0] = 2;
    made.data_total = 2;
    made.count = 1;
    routed[1].data_at = 2;
    for (int has = 0; has <= 1; has++) {
        routed[1].is_retransmission = routed[1].fields.has_ssrc = (uint8_t)has;
        TOLD(routed[1].data_at, write_headers);
        TOLD(routed[1].fields.has_ssrc, write_headers);
        bytes("ssrc", &routed[1].fields.ssrc, 4, write_headers, has);
        bytes("original_number", &routed[1].original_number, 2, write_headers, has);
        TOLD(routed[1].is_retransmission, write_headers);
        TOLD(routed[1].clears_padding, write_headers);
        QUIET(routed[1].at, write_headers); /* these three are written */
        QUIET(routed[1].status, write_headers);
        QUIET(routed[1].len, write_headers);
    }
    bytes("data of both", given, 4, write_headers, 1);
    TOLD(made.header_len, write_headers);
    TOLD(made.data_at[0], write_headers);
    QUIET(made.data_at[1], write_headers);
    TOLD(made.data_total, write_headers);
    TOLD(made.count, write_headers);
    TOLD(made.data_len[0], write_headers);
    QUIET(made.data_len[1], write_headers);
}

static void receivers(void) {
    void (*const calls[])(void) = {wide_accepts, wide_standing, wide_record, wide_receive};
    for (int started = 0; started <= 1; started++) {
        receiver.started = wide.started = restarting.started = (uint8_t)started;
        TOLD(receiver.highest, accepts);
        TOLD(receiver.started, accepts);
        bytes("recorded", &receiver.recorded_low, 16, accepts, started);
        TOLD(wide.highest, wide_accepts);
        TOLD(wide.started, wide_accepts);
        for (size_t i = 0; i < sizeof calls / sizeof *calls; i++) {
            bytes("words", words, sizeof words, calls[i], started);
        }
        bytes("words of one that restarts", words, sizeof words, wide_restarting, started);
    }
    /* Of the payload the number, and the padding's length. */
    memcpy(buf, datagram, LEN);
    bytes("an original number", buf + 24, 2, from_retransmission, 1);
    bytes("a padding's length", buf + 26, 1, from_retransmission, 1);
}

int main(void) {
    fields_of_a_packet();
    entries();
    values();
    streams();
    standards();
    elements();
    receivers_of_a_group();
    receivers();
    printf("%d bytes of fields\n", tried);
    return 0;
}
