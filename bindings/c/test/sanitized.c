/* What a sanitizer tells of each call of rtp_wire.h that takes a pointer. Built with -fsanitize=address, of each block
 * that is one byte shorter than is said; with -fsanitize=memory, of each block that is read and wasn't set; with
 * -fsanitize=thread, of each block that another thread writes at the same time, and of each that the call writes and
 * another one reads. Of a call that is given what it is owed it tells nothing, nor of its outputs. Prints how many
 * blocks were tried, or the first of which it told wrongly. */
#include "../rtp_wire.h"
#include "sanitized.h"

static void done(int32_t status) {
    if (status != RTPW_OK) {
        printf("%s: the status %d\n", running, (int)status);
        fflush(stdout);
        _exit(3);
    }
}

/* One source, a block of the one-byte form with the element 3 of two bytes, and a payload of 3 bytes, with padding
 * of 1. */
static const uint8_t datagram[] = {0xb1, 111, 1,    2,    0, 0, 3,    4, 0, 0, 0, 44, 0, 0,
                                   0,    9,   0xbe, 0xde, 0, 1, 0x31, 8, 9, 0, 7, 8,  1};
#define LEN (sizeof datagram)
#define BODY (datagram + 20)
static const rtpw_map map = {{0, 0, 0, RTPW_KIND_AUDIO_LEVEL, RTPW_KIND_RID, RTPW_KIND_REPAIRED_RID}};
static const uint8_t data_of_3[] = {3, 4};
static const rtpw_element chosen[] = {{0, 2, 2, 3}};
static const size_t length = LEN;

#define PACKET in(datagram, LEN)
#define CHANGED in_out(datagram, LEN)
#define MAP in(&map, sizeof map)
#define DATA in(data_of_3, sizeof data_of_3)
#define CHOSEN in(chosen, sizeof chosen)

static uint8_t *buffer(void) { /* the packet, and 9 bytes behind it */
    uint8_t *it = out(LEN + 9);
    all[blocks].is_read = 1;
#ifdef IS_MEMORY
    if (blocks == wrong) {
        return it;
    }
#endif
    copy(it, datagram, LEN);
    return it;
}

static rtpw_header header(void) {
    rtpw_header it;
    memset(&it, 0, sizeof it);
    it.has_extension = it.values.has_audio_level = it.values.has_voice_activity = it.values.has_mid = 1;
    return it;
}

static rtpw_layers layers(void) {
    rtpw_layers it;
    memset(&it, 0, sizeof it);
    it.count = it.streams[0].count = it.streams[0].layers[0].rates = 1;
    return it;
}

static void is_rtcp(void) {
    (void)rtpw_is_rtcp(PACKET, LEN);
}
static void packet_parse(void) {
    const uint8_t *bytes = PACKET;
    rtpw_packet *it = out(sizeof *it);
    done(rtpw_packet_parse(bytes, LEN, it));
    set(it, sizeof *it);
}
static void set_marker(void) {
    done(rtpw_set_marker(CHANGED, LEN, true));
}
static void set_payload_type(void) {
    done(rtpw_set_payload_type(CHANGED, LEN, 1));
}
static void set_sequence_number(void) {
    done(rtpw_set_sequence_number(CHANGED, LEN, 1));
}
static void set_timestamp(void) {
    done(rtpw_set_timestamp(CHANGED, LEN, 1));
}
static void set_ssrc(void) {
    done(rtpw_set_ssrc(CHANGED, LEN, 1));
}
static void set_padding(void) {
    done(rtpw_set_padding(CHANGED, LEN, true));
}
static void set_csrc(void) {
    done(rtpw_set_csrc(CHANGED, LEN, 0, 1));
}
static void set_new(void) { /* a packet of which only the first byte is set before */
    uint8_t *it = out(12);
    it[0] = 0x80;
    done(rtpw_set_marker(it, 12, true));
    done(rtpw_set_payload_type(it, 12, 1));
    done(rtpw_set_sequence_number(it, 12, 1));
    done(rtpw_set_timestamp(it, 12, 1));
    done(rtpw_set_ssrc(it, 12, 1));
    set(it, 12);
}
static void set_fields(void) {
    rtpw_fields fields = {1, 2, 3, 4, 1, 1, 1, 1, 1, 1};
    uint8_t *bytes = CHANGED;
    done(rtpw_set_fields(bytes, LEN, in(&fields, sizeof fields)));
}
static void set_element(void) {
    uint8_t *bytes = CHANGED;
    done(rtpw_set_element(bytes, LEN, 3, DATA, 2));
}
static void remove_element(void) {
    done(rtpw_remove_element(CHANGED, LEN, 3));
}
static void remove_padding(void) {
    uint8_t *bytes = CHANGED;
    size_t *len = out(sizeof *len);
    done(rtpw_remove_padding(bytes, LEN, len));
    set(len, sizeof *len);
}
static void put_element(void) {
    uint8_t *bytes = buffer();
    size_t *len = in_out(&length, sizeof length);
    done(rtpw_put_element(bytes, LEN + 9, len, 30, DATA, 2, RTPW_ANY_FORM));
    set(bytes, *len);
}
static void add_element(void) {
    uint8_t *bytes = buffer();
    size_t *len = in_out(&length, sizeof length);
    done(rtpw_add_element(bytes, LEN + 9, len, 3, DATA, 2, RTPW_ANY_FORM));
    set(bytes, *len);
}
static void change_form(void) {
    uint8_t *bytes = buffer();
    size_t *len = in_out(&length, sizeof length);
    done(rtpw_change_form(bytes, LEN + 9, len, RTPW_TWO_BYTE_FORM));
    set(bytes, *len);
}
static void remove_block(void) {
    uint8_t *bytes = buffer();
    size_t *len = in_out(&length, sizeof length);
    done(rtpw_remove_block(bytes, LEN + 9, len));
    set(bytes, *len);
}
static void put_block(void) { /* of a body whose bytes aren't looked at */
    uint8_t *bytes = buffer();
    size_t *len = in_out(&length, sizeof length);
    done(rtpw_put_block(bytes, LEN + 9, len, 0xabac, in("12345678", 8), 8));
    set(bytes, *len);
}
static void compact(void) {
    uint8_t *bytes = buffer();
    size_t *len = in_out(&length, sizeof length);
    done(rtpw_compact(bytes, LEN + 9, len));
    set(bytes, *len);
}
static void next_element(void) {
    const uint8_t *body = in(BODY, 4);
    rtpw_element *it = out(sizeof *it);
    done(rtpw_next_element(body, 4, RTPW_ONE_BYTE_FORM, 0, it));
    set(it, sizeof *it);
}
static void next_elements(void) {
    const uint8_t *body = in(BODY, 4);
    rtpw_element *them = out(2 * sizeof *them);
    set(them, rtpw_next_elements(body, 4, RTPW_ONE_BYTE_FORM, 0, them, 2) * sizeof *them);
}
static void last_element(void) {
    const uint8_t *body = in(BODY, 4);
    rtpw_element *it = out(sizeof *it);
    done(rtpw_last_element(body, 4, RTPW_ONE_BYTE_FORM, 3, it));
    set(it, sizeof *it);
}
static void values_read(void) {
    const uint8_t *body = in(BODY, 4);
    const rtpw_map *kinds = MAP;
    rtpw_values *it = out(sizeof *it);
    done(rtpw_values_read(body, 4, RTPW_ONE_BYTE_FORM, kinds, it));
    set(it, sizeof *it);
}
static void uri_of_kind(void) {
    uint8_t *bytes = out(40);
    size_t *len = out(sizeof *len);
    done(rtpw_uri_of_kind(RTPW_KIND_MID, bytes, 40, len));
    set(bytes, *len);
}
static void kind_of_uri(void) {
    (void)rtpw_kind_of_uri(in("urn:x", 5), 5);
}
static void map_set(void) { /* each id in turn */
    rtpw_map *it = out(sizeof *it);
    for (int id = 1; id < 256; id++) {
        done(rtpw_map_set(it, (uint8_t)id, RTPW_KIND_MID));
    }
    set(it->kind + 1, 255);
}
static void map_remove(void) { /* each id in turn */
    rtpw_map *it = out(sizeof *it);
    for (int id = 1; id < 256; id++) {
        rtpw_map_remove(it, (uint8_t)id);
    }
    set(it->kind + 1, 255);
}
static void map_get(void) {
    (void)rtpw_map_get(MAP, 3);
}
static void id_of(void) {
    (void)rtpw_id_of(MAP, 3);
}
static void map_standard(void) {
    rtpw_map *it = out(sizeof *it);
    rtpw_map_standard(it);
    set(it, sizeof *it);
}
static void data_of(void) {
    rtpw_header it = header();
    const rtpw_values *values = in(&it.values, sizeof it.values);
    uint8_t *bytes = out(5);
    size_t *len = out(sizeof *len);
    done(rtpw_data_of(RTPW_KIND_AUDIO_LEVEL, values, bytes, 5, len));
    set(bytes, *len);
}
static void read_whole(void) {
    const uint8_t *bytes = PACKET;
    const rtpw_map *kinds = MAP;
    rtpw_whole_packet *it = out(sizeof *it);
    done(rtpw_read(bytes, LEN, kinds, it));
    set(it, sizeof *it);
}
static void read_rtcp(void) { /* of which only two bytes are looked at, and nothing is written */
    static const uint8_t report[] = {0x81, 201, 0, 7};
    const uint8_t *bytes = in(report, 2);
    const rtpw_map *kinds = MAP;
    rtpw_whole_packet it;
    if (rtpw_read(bytes, 2, kinds, &it) != RTPW_RTCP) {
        _exit(3);
    }
}
static void parse(void) {
    const uint8_t *bytes = PACKET;
    const rtpw_map *kinds = MAP;
    rtpw_header *it = out(sizeof *it);
    done(rtpw_parse(bytes, LEN, kinds, it));
    set(it, sizeof *it);
}
static void parse_layers(void) {
    const uint8_t *bytes = PACKET;
    const rtpw_map *kinds = MAP;
    rtpw_header *it = out(sizeof *it);
    rtpw_layers *lay = out(sizeof *lay);
    done(rtpw_parse_layers(bytes, LEN, kinds, it, lay));
    set(it, sizeof *it);
    set(lay, sizeof *lay);
}
static void wire_len(void) {
    rtpw_header it = header();
    const rtpw_map *kinds = MAP;
    const rtpw_header *head = in(&it, sizeof it);
    size_t *len = out(sizeof *len);
    done(rtpw_wire_len(kinds, head, len));
    set(len, sizeof *len);
}
static void written(void) {
    rtpw_header it = header();
    const rtpw_map *kinds = MAP;
    const rtpw_header *head = in(&it, sizeof it);
    uint8_t *bytes = out(40);
    size_t *len = out(sizeof *len);
    done(rtpw_write(kinds, head, bytes, 40, len));
    set(bytes, *len);
}
static void wire_len_layers(void) {
    rtpw_header it = header();
    rtpw_layers lay = layers();
    const rtpw_map *kinds = MAP;
    const rtpw_header *head = in(&it, sizeof it);
    const rtpw_layers *streams = in(&lay, sizeof lay);
    size_t *len = out(sizeof *len);
    done(rtpw_wire_len_layers(kinds, head, streams, len));
    set(len, sizeof *len);
}
static void write_layers(void) {
    rtpw_header it = header();
    rtpw_layers lay = layers();
    const rtpw_map *kinds = MAP;
    const rtpw_header *head = in(&it, sizeof it);
    const rtpw_layers *streams = in(&lay, sizeof lay);
    uint8_t *bytes = out(40);
    size_t *len = out(sizeof *len);
    done(rtpw_write_layers(kinds, head, streams, bytes, 40, len));
    set(bytes, *len);
}
static void left_out(void) {
    rtpw_header it = header();
    const rtpw_map *kinds = MAP;
    const rtpw_header *head = in(&it, sizeof it);
    uint32_t *left = out(sizeof *left);
    done(rtpw_left_out(kinds, head, left));
    set(left, sizeof *left);
}
static void left_out_layers(void) {
    rtpw_header it = header();
    rtpw_layers lay = layers();
    const rtpw_map *kinds = MAP;
    const rtpw_header *head = in(&it, sizeof it);
    const rtpw_layers *streams = in(&lay, sizeof lay);
    uint32_t *left = out(sizeof *left);
    done(rtpw_left_out_layers(kinds, head, streams, left));
    set(left, sizeof *left);
}
static void write_with(void) {
    rtpw_header it = header();
    const rtpw_header *head = in(&it, sizeof it);
    const uint8_t *data = DATA;
    const rtpw_element *elements = CHOSEN;
    uint8_t *bytes = out(40);
    size_t *len = out(sizeof *len);
    done(rtpw_write_with(head, data, 2, elements, 1, bytes, 40, len));
    set(bytes, *len);
}
static void write_with_form(void) {
    rtpw_header it = header();
    const rtpw_header *head = in(&it, sizeof it);
    const uint8_t *data = DATA;
    const rtpw_element *elements = CHOSEN;
    uint8_t *bytes = out(40);
    size_t *len = out(sizeof *len);
    done(rtpw_write_with_form(head, data, 2, elements, 1, RTPW_TWO_BYTE_FORM, bytes, 40, len));
    set(bytes, *len);
}
static void write_elements(void) {
    const uint8_t *data = DATA;
    const rtpw_element *elements = CHOSEN;
    uint8_t *bytes = out(40);
    size_t *len = out(sizeof *len);
    done(rtpw_write_elements(data, 2, elements, 1, RTPW_TWO_BYTE_FORM, bytes, 40, len));
    set(bytes, *len);
}
static void read_fixed_part(void) {
    const uint8_t *bytes = PACKET;
    rtpw_fixed_part *fixed = out(sizeof *fixed);
    rtpw_layout *layout = out(sizeof *layout);
    done(rtpw_read_fixed_part(bytes, LEN, fixed, layout));
    set(fixed, sizeof *fixed);
    set(layout, sizeof *layout);
}
static void write_fixed_part(void) {
    rtpw_fixed_part it = {2, 0, 0, 1, 96, 7, 8, 9};
    const rtpw_fixed_part *fixed = in(&it, sizeof it);
    uint8_t *bytes = out(40);
    done(rtpw_write_fixed_part(fixed, bytes, 40));
    set(bytes, 12);
}
static void write_data_elements(void) {
    rtpw_fixed_part it = {2, 0, 0, 1, 96, 7, 8, 9};
    const rtpw_fixed_part *fixed = in(&it, sizeof it);
    rtpw_data_element given = {1, DATA, 2, 0};
    const rtpw_data_element *elements = in(&given, sizeof given);
    uint8_t *bytes = out(40);
    size_t *len = out(sizeof *len);
    done(rtpw_write_data_elements(fixed, elements, 1, RTPW_ONE_BYTE_FORM, bytes, 40, len));
    set(bytes, *len);
}
static void read_send_time(void) {
    const uint8_t *data = in("\1\2\3", 3);
    uint32_t *it = out(sizeof *it);
    done(rtpw_read_send_time(data, 3, it));
    set(it, sizeof *it);
}
static void write_send_time(void) {
    uint8_t *bytes = out(4);
    size_t *len = out(sizeof *len);
    done(rtpw_write_send_time(66051, bytes, 4, len));
    set(bytes, 3);
}
static void read_transmission_offset(void) {
    const uint8_t *data = in("\0\1\2", 3);
    int32_t *it = out(sizeof *it);
    done(rtpw_read_transmission_offset(data, 3, it));
    set(it, sizeof *it);
}
static void write_transmission_offset(void) {
    uint8_t *bytes = out(3);
    size_t *len = out(sizeof *len);
    done(rtpw_write_transmission_offset(-90, bytes, 3, len));
    set(bytes, *len);
}
static void read_frame_marking(void) {
    const uint8_t *data = in("\xa9\2\7", 3);
    rtpw_frame_marking *it = out(sizeof *it);
    done(rtpw_read_frame_marking(data, 3, it));
    set(it, sizeof *it);
}
static void write_frame_marking(void) {
    static const rtpw_frame_marking that = {1, 0, 1, 0, 1, 1, 1, 2, 1, 7};
    const rtpw_frame_marking *it = in(&that, sizeof that);
    uint8_t *bytes = out(3);
    size_t *len = out(sizeof *len);
    done(rtpw_write_frame_marking(it, bytes, 3, len));
    set(bytes, *len);
}
static void read_orientation(void) {
    const uint8_t *data = in("\16", 1);
    rtpw_orientation *it = out(sizeof *it);
    done(rtpw_read_orientation(data, 1, it));
    set(it, sizeof *it);
}
static void write_orientation(void) {
    static const rtpw_orientation that = {180, RTPW_CAMERA_BACK, 1};
    const rtpw_orientation *it = in(&that, sizeof that);
    uint8_t *bytes = out(1);
    size_t *len = out(sizeof *len);
    done(rtpw_write_orientation(it, bytes, 1, len));
    set(bytes, *len);
}
static void is_token(void) {
    (void)rtpw_is_token(in("cam-1", 5), 5);
}
static void is_stream_id(void) {
    (void)rtpw_is_stream_id(in("cam1", 4), 4);
}
static void read_timing(void) {
    const uint8_t *data = in("\2\0\1\0\2\0\3\0\4\0\5\0\6", 13);
    rtpw_timing *it = out(sizeof *it);
    done(rtpw_read_timing(data, 13, it));
    set(it, sizeof *it);
}
static void write_timing(void) {
    static const rtpw_timing that = {1, 2, 3, 4, 5, 6, 2, 1};
    const rtpw_timing *it = in(&that, sizeof that);
    uint8_t *bytes = out(13);
    size_t *len = out(sizeof *len);
    done(rtpw_write_timing(it, bytes, 13, len));
    set(bytes, *len);
}
static void read_transport_number(void) { /* with a request, and without */
    const uint8_t *data = in("\1\2\x80\5", 4), *number = in("\1\2", 2);
    rtpw_transport_number *it = out(sizeof *it);
    done(rtpw_read_transport_number(number, 2, it));
    done(rtpw_read_transport_number(data, 4, it));
    set(it, sizeof *it);
}
static void write_transport_number(void) {
    static const rtpw_transport_number that = {258, 5, 1, 1};
    const rtpw_transport_number *it = in(&that, sizeof that);
    uint8_t *bytes = out(4);
    size_t *len = out(sizeof *len);
    done(rtpw_write_transport_number(it, bytes, 4, len));
    set(bytes, *len);
}
static void read_mixer_level(void) {
    const uint8_t *data = in("\1\2\3", 3);
    int8_t *it = out(sizeof *it);
    done(rtpw_read_mixer_level(data, 3, 3, 1, it));
    set(it, sizeof *it);
}
static void write_mixer_levels(void) {
    static const int8_t these[] = {-1, -2, -3};
    const int8_t *it = in(these, sizeof these);
    uint8_t *bytes = out(3);
    size_t *len = out(sizeof *len);
    done(rtpw_write_mixer_levels(it, 3, bytes, 3, len));
    set(bytes, *len);
}
static void read_ntp_64(void) {
    const uint8_t *data = in("\1\2\3\4\5\6\7\10", 8);
    uint64_t *it = out(sizeof *it);
    done(rtpw_read_ntp_64(data, 8, it));
    set(it, sizeof *it);
}
static void write_ntp_64(void) {
    uint8_t *bytes = out(8);
    size_t *len = out(sizeof *len);
    done(rtpw_write_ntp_64(1, bytes, 8, len));
    set(bytes, *len);
}
static void read_ntp_56(void) {
    const uint8_t *data = in("\1\2\3\4\5\6\7", 7);
    uint64_t *it = out(sizeof *it);
    done(rtpw_read_ntp_56(data, 7, it));
    set(it, sizeof *it);
}
static void write_ntp_56(void) {
    uint8_t *bytes = out(7);
    size_t *len = out(sizeof *len);
    done(rtpw_write_ntp_56(1, bytes, 7, len));
    set(bytes, *len);
}
static void read_color_space(void) { /* without HDR metadata, and with these */
    static const uint8_t hdr[28] = {9, 16, 9, 0x15};
    const uint8_t *colors = in(hdr, 4), *data = in(hdr, 28);
    rtpw_color_space *it = out(sizeof *it);
    done(rtpw_read_color_space(colors, 4, it));
    done(rtpw_read_color_space(data, 28, it));
    set(it, sizeof *it);
}
static void write_color_space(void) {
    static const rtpw_color_space that = {{1, 2, {3, 4}, {5, 6}, {7, 8}, {9, 10}, 11, 12}, 1, 2, 3, 1, 1, 1, 1};
    const rtpw_color_space *it = in(&that, sizeof that);
    uint8_t *bytes = out(28);
    size_t *len = out(sizeof *len);
    done(rtpw_write_color_space(it, bytes, 28, len));
    set(bytes, *len);
}
static void read_dependency_descriptor(void) {
    const uint8_t *data = in("\x83\1\2\x80", 4);
    rtpw_dependency_descriptor *it = out(sizeof *it);
    done(rtpw_read_dependency_descriptor(data, 4, it));
    set(it, sizeof *it);
}
static void write_dependency_descriptor(void) {
    static const rtpw_dependency_descriptor that = {258, 1, 0, 3};
    const rtpw_dependency_descriptor *it = in(&that, sizeof that);
    uint8_t *bytes = out(3);
    size_t *len = out(sizeof *len);
    done(rtpw_write_dependency_descriptor(it, bytes, 3, len));
    set(bytes, *len);
}
static void has_structure(void) {
    (void)rtpw_has_structure(in("\x83\1\2\x80\4", 5), 5);
}
static void absent_parts(void) { /* what stands beside a has_ of 0 isn't looked at */
    rtpw_frame_marking *marking = out(sizeof *marking);
    rtpw_timing *timing = out(sizeof *timing);
    rtpw_transport_number *number = out(sizeof *number);
    rtpw_color_space *space = out(sizeof *space);
    uint8_t bytes[12];
    size_t len;
    marking->start = marking->end = marking->independent = marking->discardable = marking->has_layers = 0;
    done(rtpw_write_frame_marking(marking, bytes, 1, &len));
    marking->base_layer_sync = marking->temporal_id = marking->layer_id = marking->has_tl0_pic_idx = 0;
    marking->has_layers = 1;
    done(rtpw_write_frame_marking(marking, bytes, 2, &len));
    timing->encode_start = timing->encode_finish = timing->packetize_complete = timing->last_left_pacer = 1;
    timing->network = timing->network2 = 2;
    timing->has_flags = 0;
    done(rtpw_write_timing(timing, bytes, 12, &len));
    number->number = 1;
    number->has_request = 0;
    done(rtpw_write_transport_number(number, bytes, 2, &len));
    space->primaries = space->transfer = space->matrix = space->range = space->horizontal = space->vertical = 1;
    space->has_hdr = 0;
    done(rtpw_write_color_space(space, bytes, 4, &len));
}
static void past_the_buffer(void) { /* what isn't within the buffer isn't looked at */
    uint8_t *it = malloc(12);
    size_t len = 13;
    if (rtpw_compact(it, 12, &len) != RTPW_BAD_FIELD || rtpw_remove_block(it, 12, &len) != RTPW_BAD_FIELD ||
        rtpw_change_form(it, 12, &len, RTPW_TWO_BYTE_FORM) != RTPW_BAD_FIELD) {
        _exit(3);
    }
    free(it);
}
static void new_ids_between(void) {
    const rtpw_map *from = MAP, *to = MAP;
    rtpw_new_ids *ids = out(sizeof *ids);
    rtpw_new_ids_between(from, to, ids);
    set(ids, sizeof *ids);
}
static void new_ids_to_retransmission(void) {
    const rtpw_map *kinds = MAP;
    rtpw_new_ids *ids = out(sizeof *ids);
    rtpw_new_ids_to_retransmission(kinds, ids);
    set(ids, sizeof *ids);
}
static void new_ids_from_retransmission(void) {
    const rtpw_map *kinds = MAP;
    rtpw_new_ids *ids = out(sizeof *ids);
    rtpw_new_ids_from_retransmission(kinds, ids);
    set(ids, sizeof *ids);
}
static void renumber(void) {
    uint8_t *bytes = CHANGED;
    done(rtpw_renumber(bytes, LEN, MAP)); /* new ids are as long */
}
static void pad(void) {
    uint8_t *bytes = buffer();
    size_t *count = out(sizeof *count);
    done(rtpw_pad(bytes, LEN + 9, LEN, 9, 1, count));
    set(bytes, LEN + *count);
}
static void read_original(void) {
    const uint8_t *bytes = in("\1\2", 2);
    uint16_t *number = out(sizeof *number);
    done(rtpw_read_original(bytes, 2, number));
    set(number, sizeof *number);
}
static void write_original(void) {
    uint8_t *bytes = out(2);
    done(rtpw_write_original(bytes, 2, 1));
    set(bytes, 2);
}
static void to_retransmission(void) {
    uint8_t *bytes = buffer();
    size_t *len = in_out(&length, sizeof length);
    done(rtpw_to_retransmission(bytes, LEN + 9, len, 1, 2, 3, MAP));
    set(bytes, *len);
}
static void from_retransmission(void) {
    uint8_t *bytes = buffer();
    size_t *len = in_out(&length, sizeof length);
    done(rtpw_from_retransmission(bytes, LEN + 9, len, 1, 2, MAP));
    set(bytes, *len);
}
static const rtpw_receiver receiver = {65541, 1, 0, 1};
static const rtpw_wide_receiver wide = {65541, 1};
static const uint64_t words[2] = {32, 0};
static const rtpw_wide_restarting_receiver wide_restarting = {65541, 0, 0, 0, 0, 0, 1};
static const rtpw_restarting_receiver restarting = {65541, {32, 0}, 0, 0, 0, 0, 1};
#define RECEIVER in(&receiver, sizeof receiver)
#define WIDE in(&wide, sizeof wide)
#define WORDS in(words, sizeof words)
#define RECEIVER_CHANGED in_out(&receiver, sizeof receiver)
#define WIDE_CHANGED in_out(&wide, sizeof wide)
#define WORDS_CHANGED in_out(words, sizeof words)
static void receiver_start(void) {
    rtpw_receiver *it = out(sizeof *it);
    done(rtpw_receiver_start(it, 1));
    set(it, sizeof *it);
}
static void receiver_number_of(void) {
    (void)rtpw_receiver_number_of(RECEIVER, 6);
}
static void receiver_accepts(void) {
    (void)rtpw_receiver_accepts(RECEIVER, 65542);
}
static void receiver_record(void) {
    rtpw_receiver_record(RECEIVER_CHANGED, 65542);
}
static void receiver_receive(void) {
    rtpw_receiver *it = RECEIVER_CHANGED;
    uint64_t *number = out(sizeof *number);
    done(rtpw_receiver_receive(it, 6, number));
    set(number, sizeof *number);
}
static void receiver_first(void) { /* what is taken isn't looked at before the first packet, nor what fills it up */
    rtpw_receiver *it = out(sizeof *it);
    uint64_t number;
    it->highest = 65536;
    it->started = 0;
    done(rtpw_receiver_receive(it, 6, &number));
    set(it, sizeof *it);
}
static void wide_receiver_start(void) {
    rtpw_wide_receiver *it = out(sizeof *it);
    done(rtpw_wide_receiver_start(it, 1));
    set(it, sizeof *it);
}
static void wide_receiver_number_of(void) {
    (void)rtpw_wide_receiver_number_of(WIDE, 6);
}
static void wide_receiver_accepts(void) {
    const rtpw_wide_receiver *it = WIDE;
    (void)rtpw_wide_receiver_accepts(it, WORDS, 2, 65542);
}
static void wide_receiver_record(void) {
    rtpw_wide_receiver *it = WIDE_CHANGED;
    done(rtpw_wide_receiver_record(it, WORDS_CHANGED, 2, 65542));
}
static void wide_receiver_receive(void) {
    rtpw_wide_receiver *it = WIDE_CHANGED;
    uint64_t *window = WORDS_CHANGED;
    uint64_t *number = out(sizeof *number);
    done(rtpw_wide_receiver_receive(it, window, 2, 6, number));
    set(number, sizeof *number);
}
static void wide_receiver_first(void) { /* nor the words */
    rtpw_wide_receiver *it = out(sizeof *it);
    uint64_t *window = out(2 * sizeof *window), number;
    done(rtpw_wide_receiver_start(it, 1));
    done(rtpw_wide_receiver_receive(it, window, 2, 6, &number));
    set(window, 2 * sizeof *window);
}
static void restarting_receive(void) {
    rtpw_restarting_receiver *it = in_out(&restarting, sizeof restarting);
    uint64_t *number = out(sizeof *number);
    done(rtpw_restarting_receive(it, 6, number));
    set(number, sizeof *number);
}
static const rtpw_reception reception = {65541, 65543, 2, 0, 0, 160, 7};
static void reception_record(void) {
    rtpw_reception *it = in_out(&reception, sizeof reception);
    rtpw_reception_record(it, 65544, 1, 2);
}
static void reception_report(void) {
    rtpw_reception *it = in_out(&reception, sizeof reception);
    rtpw_report *report = out(sizeof *report);
    done(rtpw_reception_report(it, report));
    set(report, sizeof *report);
}
static void write_report(void) {
    static const rtpw_report that = {64, -2, 65544, 1};
    const rtpw_report *it = in(&that, sizeof that);
    uint8_t *bytes = out(24);
    size_t *len = out(sizeof *len);
    done(rtpw_write_report(it, 44, 2, 3, bytes, 24, len));
    set(bytes, *len);
}
static void wide_restarting_receive(void) {
    rtpw_wide_restarting_receiver *it = in_out(&wide_restarting, sizeof wide_restarting);
    uint64_t *window = WORDS_CHANGED, *number = out(sizeof *number);
    done(rtpw_wide_restarting_receive(it, window, 2, 6, number));
    set(it, sizeof *it);
    set(window, 2 * sizeof *window);
    set(number, sizeof *number);
}
static void wide_restarting_first(void) { /* neither the highest number is looked at nor the words */
    rtpw_wide_restarting_receiver *it = out(sizeof *it);
    uint64_t *window = out(2 * sizeof *window), number;
    it->max_dropout = it->max_misorder = it->min_sequential = it->in_row = it->started = 0;
    done(rtpw_wide_restarting_receive(it, window, 2, 6, &number));
    set(window, 2 * sizeof *window);
}
static void receiver_standing_of(void) {
    (void)rtpw_receiver_standing_of(RECEIVER, 65541);
}
static void wide_receiver_standing_of(void) {
    const rtpw_wide_receiver *it = WIDE;
    (void)rtpw_wide_receiver_standing_of(it, WORDS, 2, 65541);
}
/* One datagram, and one that isn't within the buffer. */
static void packet_parse_many(void) {
    const uint8_t *bytes = PACKET;
    rtpw_datagram these[2], *it;
    these[0].at = 0;
    these[1].at = 1;
    these[0].len = these[1].len = LEN;
    it = in_out(these, sizeof these);
    rtpw_packet_parse_many(bytes, LEN, it, 2);
    if (it[0].status != RTPW_OK || it[1].status != RTPW_BAD_FIELD || it[0].is_rtcp || it[1].is_rtcp) {
        _exit(3);
    }
    set(&it[0].packet, sizeof it[0].packet);
}
static void read_many(void) {
    const uint8_t *bytes = PACKET;
    const rtpw_map *kinds = MAP;
    rtpw_whole_datagram these[2], *it;
    these[0].at = 0;
    these[1].at = 1;
    these[0].len = these[1].len = LEN;
    it = in_out(these, sizeof these);
    rtpw_read_many(bytes, LEN, kinds, it, 2);
    if (it[0].status != RTPW_OK || it[1].status != RTPW_BAD_FIELD) {
        _exit(3);
    }
    set(&it[0].packet, sizeof it[0].packet);
}
static void parse_many(void) {
    const uint8_t *bytes = PACKET;
    const rtpw_map *kinds = MAP;
    rtpw_datagram_header these[2], *it;
    these[0].at = 0;
    these[1].at = 1;
    these[0].len = these[1].len = LEN;
    it = in_out(these, sizeof these);
    rtpw_parse_many(bytes, LEN, kinds, it, 2);
    if (it[0].status != RTPW_OK || it[1].status != RTPW_BAD_FIELD || it[0].is_rtcp || it[1].is_rtcp) {
        _exit(3);
    }
    set(&it[0].header, sizeof it[0].header);
}
static void receive_many(void) { /* the second receiver has taken nothing, and there is no third */
    rtpw_receiver two[2], *receivers;
    rtpw_arrival these[3], *it;
    two[0] = receiver;
    two[1].highest = 65536;
    two[1].started = 0;
    for (size_t i = 0; i < 3; i++) {
        these[i].receiver = i;
        these[i].sequence_number = 6;
    }
    receivers = in_out(two, sizeof two);
    it = in_out(these, sizeof these);
    rtpw_receive_many(receivers, 2, it, 3);
    done(it[0].status);
    done(it[1].status);
    set(&it[0].number, sizeof it[0].number);
    set(&it[2].status, sizeof it[2].status);
    set(receivers, sizeof two);
}
static void make_template(void) {
    rtpw_new_ids ids;
    rtpw_element element;
    rtpw_template *made;
    uint8_t *buf;
    memset(&ids, 3, sizeof ids);
    memset(&element, 0, sizeof element);
    element.data_len = 2;
    element.id = 4;
    const uint8_t *packet = PACKET, *data = in("ab", 2);
    const rtpw_new_ids *given_ids = in(&ids, sizeof ids);
    const rtpw_element *elements = in(&element, sizeof element);
    buf = out(400);
    made = out(sizeof *made);
    done(rtpw_make_template(packet, LEN, given_ids, data, 2, elements, 1, RTPW_ANY_FORM, buf, 400, made));
    set(made, sizeof *made);
    set(buf, made->header_len);
}
static void prepare_group(void) {
    rtpw_new_ids ids;
    rtpw_element element;
    rtpw_group *group;
    memset(&ids, 3, sizeof ids);
    memset(&element, 0, sizeof element);
    element.data_len = 2;
    element.id = 4;
    const rtpw_new_ids *given_ids = in(&ids, sizeof ids);
    const rtpw_element *elements = in(&element, sizeof element);
    group = out(sizeof *group);
    done(rtpw_prepare_group(given_ids, elements, 1, RTPW_ANY_FORM, group));
    set(group, sizeof *group);
}
static void make_from_group(void) {
    rtpw_new_ids ids;
    rtpw_group group;
    rtpw_template *made;
    uint8_t *buf;
    memset(&ids, 3, sizeof ids);
    done(rtpw_prepare_group(&ids, NULL, 0, RTPW_ANY_FORM, &group));
    const uint8_t *packet = PACKET;
    const rtpw_group *given = in(&group, sizeof group);
    buf = out(400);
    made = out(sizeof *made);
    done(rtpw_make_from_group(given, packet, LEN, buf, 400, made));
    set(made, sizeof *made);
    set(buf, made->header_len);
}
static const uint8_t template_header[24] = {0x90, 96,   0, 5, 0,    0,    0,    100, 0, 0, 0, 44,
                                            0xBE, 0xDE, 0, 2, 0x30, 0xAA, 0x41, 0,   7, 0, 0, 0};
static rtpw_template made_before(void) { /* two bytes of data */
    rtpw_template it;
    memset(&it, 0, sizeof it);
    it.header_len = 24;
    it.data_at[0] = 19;
    it.data_len[0] = 2;
    it.data_total = 2;
    it.count = 1;
    return it;
}
static void told_of_receivers(const rtpw_routed_header *receivers, size_t count) {
    for (size_t i = 0; i < count; i++) {
        set(&receivers[i].at, sizeof receivers[i].at);
        set(&receivers[i].status, sizeof receivers[i].status);
        set(&receivers[i].len, sizeof receivers[i].len);
    }
}
static void write_headers(void) { /* of the second one the data aren't there; the third is a retransmission */
    rtpw_template it = made_before();
    rtpw_routed_header three[3], *receivers;
    uint8_t *buf;
    memset(three, 0, sizeof three);
    three[0].fields.has_ssrc = 1;
    three[1].data_at = 1;
    three[2].is_retransmission = 1;
    const rtpw_template *made = in(&it, sizeof it);
    const uint8_t *copied = in(template_header, sizeof template_header), *data = in("ab", 2);
    receivers = in_out(three, sizeof three);
    buf = out(60);
    done(rtpw_write_headers(made, copied, sizeof template_header, data, 2, receivers, 3, buf, 60));
    done(receivers[0].status);
    done(receivers[2].status);
    if (receivers[1].status != RTPW_BAD_FIELD || receivers[2].at != 24 || receivers[2].len != 26) {
        _exit(3);
    }
    set(buf, 50);
    told_of_receivers(receivers, 3);
}
static void write_headers_new(void) { /* what is written of a receiver isn't looked at, nor what isn't given */
    rtpw_template it = made_before();
    rtpw_routed_header *receivers = out(2 * sizeof *receivers);
    uint8_t *buf = out(30);
    for (size_t i = 0; i < 2; i++) {
        receivers[i].data_at = i;
        memset(&receivers[i].fields.has_timestamp, 0, 5);
        receivers[i].is_retransmission = receivers[i].clears_padding = 0;
    }
    done(rtpw_write_headers(&it, template_header, sizeof template_header, data_of_3, 2, receivers, 2, buf, 30));
    told_of_receivers(receivers, 2);
    done(receivers[0].status);
    set(buf, 24);
}
static void no_bytes(void) { /* NULL, where the size is 0 */
    size_t len = 0;
    rtpw_packet packet;
    rtpw_element element;
    rtpw_values values;
    uint16_t original;
    uint64_t time;
    uint32_t units;
    rtpw_header it = header();
    rtpw_template made;
    rtpw_routed_header routed;
    uint8_t bytes[60];
    if (rtpw_is_rtcp(NULL, 0) || rtpw_packet_parse(NULL, 0, &packet) != RTPW_CUT_FIXED_PART ||
        rtpw_next_element(NULL, 0, RTPW_ONE_BYTE_FORM, 0, &element) != RTPW_NONE ||
        rtpw_next_elements(NULL, 0, RTPW_ONE_BYTE_FORM, 0, NULL, 0) != 0 ||
        rtpw_put_element(NULL, 0, &len, 1, NULL, 0, RTPW_ANY_FORM) != RTPW_CUT_FIXED_PART ||
        rtpw_add_element(NULL, 0, &len, 1, NULL, 0, RTPW_ANY_FORM) != RTPW_CUT_FIXED_PART ||
        rtpw_change_form(NULL, 0, &len, RTPW_TWO_BYTE_FORM) != RTPW_CUT_FIXED_PART ||
        rtpw_remove_block(NULL, 0, &len) != RTPW_CUT_FIXED_PART ||
        rtpw_put_block(NULL, 0, &len, 0xabac, NULL, 0) != RTPW_CUT_FIXED_PART ||
        rtpw_from_retransmission(NULL, 0, &len, 1, 1, (const rtpw_new_ids *)(const void *)&map) !=
            RTPW_CUT_FIXED_PART ||
        rtpw_read_original(NULL, 0, &original) != RTPW_SHORT_BUFFER || rtpw_kind_of_uri(NULL, 0) != RTPW_KIND_NONE ||
        rtpw_read_ntp_64(NULL, 0, &time) != RTPW_BAD_FIELD || rtpw_is_token(NULL, 0) || rtpw_is_stream_id(NULL, 0) ||
        rtpw_has_structure(NULL, 0) || rtpw_read_send_time(NULL, 0, &units) != RTPW_BAD_FIELD ||
        rtpw_write_send_time(0, NULL, 0, &len) != RTPW_SHORT_BUFFER ||
        rtpw_set_element(NULL, 0, 1, NULL, 0) != RTPW_CUT_FIXED_PART ||
        rtpw_last_element(NULL, 0, RTPW_TWO_BYTE_FORM, 1, &element) != RTPW_NONE) {
        _exit(3);
    }
    done(rtpw_values_read(NULL, 0, RTPW_ONE_BYTE_FORM, &map, &values));
    done(rtpw_pad(NULL, 0, 0, 0, 1, &len));
    done(rtpw_write_with(&it, NULL, 0, NULL, 0, bytes, sizeof bytes, &len));
    done(rtpw_write_mixer_levels(NULL, 0, NULL, 0, &len));
    done(rtpw_write_elements(NULL, 0, NULL, 0, RTPW_ONE_BYTE_FORM, NULL, 0, &len));
    done(rtpw_make_template(template_header, 24, (const rtpw_new_ids *)(const void *)&map, NULL, 0, NULL, 0,
                            RTPW_ANY_FORM, bytes, sizeof bytes, &made));
    done(rtpw_write_headers(&made, bytes, made.header_len, NULL, 0, NULL, 0, NULL, 0));
    memset(&routed, 0, sizeof routed); /* a receiver without data */
    done(rtpw_write_headers(&made, bytes, made.header_len, NULL, 0, &routed, 1, bytes + 30, 30));
    done(routed.status);
    rtpw_read_many(NULL, 0, &map, NULL, 0);
    rtpw_packet_parse_many(NULL, 0, NULL, 0);
    rtpw_parse_many(NULL, 0, &map, NULL, 0);
    rtpw_receive_many(NULL, 0, NULL, 0);
}

static const struct called cases[] = {
#define CASE(name) \
    { #name, name }
    CASE(is_rtcp),
    CASE(packet_parse),
    CASE(set_marker),
    CASE(set_payload_type),
    CASE(set_sequence_number),
    CASE(set_timestamp),
    CASE(set_ssrc),
    CASE(set_padding),
    CASE(set_csrc),
    CASE(set_new),
    CASE(set_fields),
    CASE(set_element),
    CASE(remove_element),
    CASE(remove_padding),
    CASE(put_element),
    CASE(add_element),
    CASE(change_form),
    CASE(remove_block),
    CASE(put_block),
    CASE(compact),
    CASE(next_element),
    CASE(next_elements),
    CASE(last_element),
    CASE(values_read),
    CASE(kind_of_uri),
    CASE(uri_of_kind),
    CASE(map_set),
    CASE(map_remove),
    CASE(map_get),
    CASE(id_of),
    CASE(map_standard),
    CASE(data_of),
    CASE(read_whole),
    CASE(read_rtcp),
    CASE(parse),
    CASE(parse_layers),
    CASE(wire_len),
    CASE(written),
    CASE(wire_len_layers),
    CASE(write_layers),
    CASE(left_out),
    CASE(left_out_layers),
    CASE(write_with),
    CASE(write_with_form),
    CASE(write_elements),
    CASE(read_fixed_part),
    CASE(write_fixed_part),
    CASE(write_data_elements),
    CASE(read_send_time),
    CASE(write_send_time),
    CASE(read_transmission_offset),
    CASE(write_transmission_offset),
    CASE(read_frame_marking),
    CASE(write_frame_marking),
    CASE(read_orientation),
    CASE(write_orientation),
    CASE(is_token),
    CASE(is_stream_id),
    CASE(read_timing),
    CASE(write_timing),
    CASE(read_transport_number),
    CASE(write_transport_number),
    CASE(read_mixer_level),
    CASE(write_mixer_levels),
    CASE(read_ntp_64),
    CASE(write_ntp_64),
    CASE(read_ntp_56),
    CASE(write_ntp_56),
    CASE(read_color_space),
    CASE(write_color_space),
    CASE(read_dependency_descriptor),
    CASE(write_dependency_descriptor),
    CASE(has_structure),
    CASE(absent_parts),
    CASE(past_the_buffer),
    CASE(new_ids_between),
    CASE(new_ids_to_retransmission),
    CASE(new_ids_from_retransmission),
    CASE(renumber),
    CASE(pad),
    CASE(read_original),
    CASE(write_original),
    CASE(to_retransmission),
    CASE(from_retransmission),
    CASE(receiver_start),
    CASE(receiver_number_of),
    CASE(receiver_accepts),
    CASE(receiver_record),
    CASE(receiver_receive),
    CASE(receiver_first),
    CASE(wide_receiver_start),
    CASE(wide_receiver_number_of),
    CASE(wide_receiver_accepts),
    CASE(wide_receiver_record),
    CASE(wide_receiver_receive),
    CASE(wide_receiver_first),
    CASE(restarting_receive),
    CASE(reception_record),
    CASE(reception_report),
    CASE(write_report),
    CASE(wide_restarting_receive),
    CASE(wide_restarting_first),
    CASE(receiver_standing_of),
    CASE(wide_receiver_standing_of),
    CASE(read_many),
    CASE(packet_parse_many),
    CASE(parse_many),
    CASE(receive_many),
    CASE(make_template),
    CASE(prepare_group),
    CASE(make_from_group),
    CASE(write_headers),
    CASE(write_headers_new),
    CASE(no_bytes)};

int main(void) {
    for (size_t i = 0; i < sizeof cases / sizeof *cases; i++) {
        if (!is_right(&cases[i])) {
            return 1;
        }
    }
    printf("%d blocks\n", tried);
    return 0;
}
