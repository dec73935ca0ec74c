/*
 * How much of the stack each function takes: it is called on a stack that is filled with one byte, and
 * what is another byte afterwards was written. What the empty call takes is left out. At most 4,096
 * bytes are allowed. Prints the function that takes most.
 */
#include "memory.h"

#include "../c/rtp_wire.h"

#include <ucontext.h>

uint64_t round_number;
uint64_t random_state = 1;
bool uses_malloc;

#define ROOM 65536
#define PAINT 0xA5

/* The longest packet: 15 sources, and a block of 65,535 words whose elements have one byte each. */
static uint8_t datagram[12 + 60 + 4 + 262140 + 8];
static rtpw_packet packet;
static rtpw_whole_packet whole;
static rtpw_element element, listed[8];
static rtpw_fields fields = {2, 3, 1, 96, 1, 1, 1, 1, 1, 1};
static rtpw_receiver receiver;
static rtpw_wide_receiver wide;
static uint64_t words[512];
static rtpw_restarting_receiver restarting;
static rtpw_reception reception = {.first = 9, .received = 1};
static rtpw_report report;
static rtpw_wide_restarting_receiver wide_restarting;
/* the longest packet, and one that isn't within the buffer */
static rtpw_datagram datagrams[2] = {{.len = sizeof datagram}, {.at = 1, .len = SIZE_MAX}};
static rtpw_datagram_header datagram_headers[2] = {{.len = sizeof datagram}, {.at = 1, .len = SIZE_MAX}};
static rtpw_whole_datagram wholes[2] = {{.len = sizeof datagram}, {.at = 1, .len = SIZE_MAX}};
static rtpw_arrival arrivals[3] = {{.sequence_number = 99}, {.sequence_number = 98}, {.receiver = 1}};
static rtpw_template made;
static rtpw_group group;
static uint8_t headers[12 + 60 + 4 + 262140 + 16 * 264], written_headers[sizeof headers], zeros[16];
static rtpw_routed_header routed[3] = {{.clears_padding = 1}, {.data_at = SIZE_MAX}, {.is_retransmission = 1}};
static rtpw_map map;
static rtpw_values values;
static rtpw_header header, given;
static rtpw_fixed_part fixed;
static rtpw_layout layout;
static rtpw_data_element data_element = {1, NULL, 0, 0};
static rtpw_layers layers, given_layers;
static rtpw_map usual;
static rtpw_new_ids ids;
static rtpw_element many[255];
static uint64_t number;
static uint16_t original;
static size_t count;
static uint32_t kinds, units;
static int32_t status; /* looked at by nobody */
static const uint8_t data[1] = {7};
static rtpw_frame_marking marking = {1, 1, 1, 1, 1, 1, 7, 9, 1, 9};
static rtpw_orientation orientation = {270, RTPW_CAMERA_BACK, 1};
static rtpw_timing timing = {1, 2, 3, 4, 5, 6, 1, 1};
static rtpw_transport_number transport_number = {1, 2, 1, 1};
static rtpw_color_space color_space = {{1, 2, {3, 4}, {5, 6}, {7, 8}, {9, 10}, 11, 12}, 9, 16, 9, 1, 1, 1, 1};
static rtpw_dependency_descriptor descriptor = {1, 1, 1, 63};
static const int8_t levels[15] = {-1, -2, -3, -4, -5, -6, -7, -8, -9, -10, -11, -12, -13, -14, -15};
static const uint8_t bytes[28] = {1, 1, 1, 0x24};
static uint8_t written[28];
static int32_t offset;
static int8_t level;
static const char LAST_URI[] = "http://www.webrtc.org/experiments/rtp-hdrext/video-layers-allocation00";

/* Four streams of a layer each, of 5 kbit/s, two of which have a resolution. */
static const uint8_t ALLOCATION[16] = {0x31, 0, 5, 5, 5, 5, 1, 0, 1, 0, 30, 1, 0, 1, 0, 30};

static void packet_of_elements(void) {
    datagram[0] = 0x9F;
    datagram[72] = 0xBE;
    datagram[73] = 0xDE;
    datagram[74] = datagram[75] = 0xFF;
    datagram[76] = 0xEF;
    memcpy(datagram + 77, ALLOCATION, sizeof ALLOCATION);
    for (size_t at = 93; at < 76 + 262140; at += 2) {
        datagram[at] = (uint8_t)(at % 28 / 2 * 16);
        datagram[at + 1] = 1;
    }
}

/* Each value is there, four streams of four layers, and 255 elements are to be written. */
static void give_all(void) {
    rtpw_values *it = &given.values;
    given.csrc_count = 15;
    given.has_extension = 1;
    memset(&it->has_send_time, 1, 17); /* the flags */
    it->playout_delay_min.hertz = it->playout_delay_max.hertz = 90000;
    it->playout_delay_min.ticks = it->playout_delay_max.ticks = UINT64_MAX;
    strcpy(it->mid, "abcdefghijklmnop");
    strcpy(it->rid, "abcdefgh");
    strcpy(it->repaired_rid, "12345678");
    given_layers.count = 4;
    for (int s = 0; s < 4; s++) {
        given_layers.streams[s].count = 4;
        for (int l = 0; l < 4; l++) {
            given_layers.streams[s].layers[l].rates = 4;
        }
    }
    for (int i = 0; i < 255; i++) {
        many[i].id = (uint8_t)(i + 1);
        many[i].data_len = sizeof data;
    }
}

static void empty(void) {}
static void packet_parse(void) { status = rtpw_packet_parse(datagram, sizeof datagram, &packet); }
static void set_marker(void) { status = rtpw_set_marker(datagram, sizeof datagram, true); }
static void set_payload_type(void) { status = rtpw_set_payload_type(datagram, sizeof datagram, 96); }
static void set_sequence_number(void) { status = rtpw_set_sequence_number(datagram, sizeof datagram, 1); }
static void set_timestamp(void) { status = rtpw_set_timestamp(datagram, sizeof datagram, 2); }
static void set_ssrc(void) { status = rtpw_set_ssrc(datagram, sizeof datagram, 3); }
static void set_fields(void) { status = rtpw_set_fields(datagram, sizeof datagram, &fields); }
static void set_csrc(void) { status = rtpw_set_csrc(datagram, sizeof datagram, 14, 4); }
static void set_element(void) { status = rtpw_set_element(datagram, sizeof datagram, 3, data, sizeof data); }
static void remove_element(void) { status = rtpw_remove_element(datagram, sizeof datagram, 3); }
static void is_rtcp(void) { number = rtpw_is_rtcp(datagram, sizeof datagram); }
static void set_padding(void) { status = rtpw_set_padding(datagram, sizeof datagram, true); }
static void remove_padding(void) { status = rtpw_remove_padding(datagram, sizeof datagram, &count); }
static void put_element(void) {
    count = sizeof datagram;
    status = rtpw_put_element(datagram, sizeof datagram, &count, 3, data, sizeof data, RTPW_ANY_FORM);
}
static void compact(void) {
    count = sizeof datagram;
    status = rtpw_compact(datagram, sizeof datagram, &count);
}
static size_t few_elements(void) { /* and a long payload, with room behind it */
    datagram[74] = 0;
    datagram[75] = 8;
    return sizeof datagram - 64;
}
static void add_element(void) {
    count = few_elements();
    status = rtpw_add_element(datagram, sizeof datagram, &count, 3, data, sizeof data, RTPW_ANY_FORM);
}
static void change_form(void) {
    count = few_elements();
    status = rtpw_change_form(datagram, sizeof datagram, &count, RTPW_TWO_BYTE_FORM);
}
static void remove_block(void) {
    count = sizeof datagram;
    status = rtpw_remove_block(datagram, sizeof datagram, &count);
}
static void put_block(void) {
    count = few_elements();
    status = rtpw_put_block(datagram, sizeof datagram, &count, 0xABAC, bytes, sizeof bytes);
}
static void next_elements(void) {
    (void)rtpw_next_elements(datagram + 76, 262140, RTPW_ONE_BYTE_FORM, 0, listed, 8);
}
static void next_element(void) { status = rtpw_next_element(datagram + 76, 262140, RTPW_ONE_BYTE_FORM, 0, &element); }
static void last_element(void) { status = rtpw_last_element(datagram + 76, 262140, RTPW_ONE_BYTE_FORM, 5, &element); }
static void receiver_start(void) { status = rtpw_receiver_start(&receiver, 1); }
static void receiver_number_of(void) { number = rtpw_receiver_number_of(&receiver, 9); }
static void receiver_accepts(void) { number = rtpw_receiver_accepts(&receiver, 9); }
static void receiver_record(void) { rtpw_receiver_record(&receiver, 65545); }
static void wide_receiver_start(void) { status = rtpw_wide_receiver_start(&wide, 1); }
static void wide_receiver_number_of(void) { number = rtpw_wide_receiver_number_of(&wide, 9); }
static void wide_receiver_accepts(void) { number = rtpw_wide_receiver_accepts(&wide, words, 512, 9); }
static void wide_receiver_record(void) { status = rtpw_wide_receiver_record(&wide, words, 512, 65545); }
static void wide_receiver_receive(void) { status = rtpw_wide_receiver_receive(&wide, words, 512, 99, &number); }
static void restarting_receive(void) { status = rtpw_restarting_receive(&restarting, 99, &number); }
static void reception_record(void) { rtpw_reception_record(&reception, 65545, 7, 9); }
static void reception_report(void) { status = rtpw_reception_report(&reception, &report); }
static void write_report(void) { status = rtpw_write_report(&report, 44, 2, 3, written, 24, &count); }
static void receiver_standing_of(void) { number = rtpw_receiver_standing_of(&receiver, 9); }
static void wide_receiver_standing_of(void) { number = rtpw_wide_receiver_standing_of(&wide, words, 512, 9); }
static void wide_restarting_receive(void) { status = rtpw_wide_restarting_receive(&wide_restarting, words, 512, 99, &number); }
static void receiver_receive(void) { status = rtpw_receiver_receive(&receiver, 99, &number); }
static void receive_many(void) { rtpw_receive_many(&receiver, 1, arrivals, 3); }
static void make_template(void) {
    status = rtpw_make_template(datagram, few_elements(), &ids, data, sizeof data, many + 1, 16, RTPW_ANY_FORM, headers,
                                sizeof headers, &made);
}
static void make_template_long(void) { /* whose block is too long for one walk */
    datagram[74] = datagram[75] = 0xFF;
    status = rtpw_make_template(datagram, sizeof datagram, &ids, data, sizeof data, many + 1, 16, RTPW_ANY_FORM, headers,
                                sizeof headers, &made);
}
static void prepare_group(void) { status = rtpw_prepare_group(&ids, many + 1, 16, RTPW_ANY_FORM, &group); }
static void make_from_group(void) {
    status = rtpw_make_from_group(&group, datagram, few_elements(), headers, sizeof headers, &made);
}
static void make_from_group_long(void) {
    datagram[74] = datagram[75] = 0xFF;
    status = rtpw_make_from_group(&group, datagram, sizeof datagram, headers, sizeof headers, &made);
}
static void write_headers(void) { /* from what was made before */
    status = rtpw_write_headers(&made, headers, sizeof headers, zeros, sizeof zeros, routed, 3, written_headers,
                                sizeof written_headers);
}
static void packet_parse_many(void) { rtpw_packet_parse_many(datagram, sizeof datagram, datagrams, 2); }
static void read_many(void) { rtpw_read_many(datagram, sizeof datagram, &map, wholes, 2); }
static void parse_many(void) { rtpw_parse_many(datagram, sizeof datagram, &map, datagram_headers, 2); }
static void values_read(void) { status = rtpw_values_read(datagram + 76, 262140, RTPW_ONE_BYTE_FORM, &map, &values); }
static void kind_of_uri(void) { number = rtpw_kind_of_uri((const uint8_t *)LAST_URI, sizeof LAST_URI - 1); }
static void uri_of_kind(void) {
    status = rtpw_uri_of_kind(RTPW_KIND_LAYERS, datagram, sizeof datagram, &count);
}
static void map_set(void) { status = rtpw_map_set(&usual, 255, RTPW_KIND_MID); }
static void map_remove(void) { rtpw_map_remove(&usual, 255); }
static void map_get(void) { number = rtpw_map_get(&map, 3); }
static void id_of(void) { number = rtpw_id_of(&map, 255); }
static void data_of(void) { status = rtpw_data_of(RTPW_KIND_MID, &given.values, datagram, sizeof datagram, &count); }
static void map_standard(void) { rtpw_map_standard(&usual); }
static void read(void) { status = rtpw_read(datagram, sizeof datagram, &map, &whole); }
static void parse(void) { status = rtpw_parse(datagram, sizeof datagram, &map, &header); }
static void parse_layers(void) { status = rtpw_parse_layers(datagram, sizeof datagram, &map, &header, &layers); }
static void wire_len(void) { status = rtpw_wire_len(&map, &given, &count); }
static void write(void) { status = rtpw_write(&map, &given, datagram, sizeof datagram, &count); }
static void wire_len_layers(void) { status = rtpw_wire_len_layers(&map, &given, &given_layers, &count); }
static void write_layers(void) {
    status = rtpw_write_layers(&map, &given, &given_layers, datagram, sizeof datagram, &count);
}
static void left_out(void) { status = rtpw_left_out(&map, &given, &kinds); }
static void left_out_layers(void) { status = rtpw_left_out_layers(&map, &given, &given_layers, &kinds); }
static void write_with(void) {
    status = rtpw_write_with(&given, data, sizeof data, many, 255, datagram, sizeof datagram, &count);
}
static void write_with_form(void) {
    status = rtpw_write_with_form(&given, data, sizeof data, many, 255, 2, datagram, sizeof datagram, &count);
}
static void write_elements(void) {
    status = rtpw_write_elements(data, sizeof data, many, 255, RTPW_TWO_BYTE_FORM, datagram, sizeof datagram, &count);
}
static void read_fixed_part(void) { status = rtpw_read_fixed_part(datagram, sizeof datagram, &fixed, &layout); }
static void write_fixed_part(void) { status = rtpw_write_fixed_part(&fixed, datagram, sizeof datagram); }
static void write_data_elements(void) {
    status = rtpw_write_data_elements(&fixed, &data_element, 1, RTPW_TWO_BYTE_FORM, datagram, sizeof datagram, &count);
}
static void new_ids_between(void) { rtpw_new_ids_between(&map, &usual, &ids); }
static void renumber(void) { status = rtpw_renumber(datagram, sizeof datagram, &ids); }
static void pad(void) { status = rtpw_pad(datagram, sizeof datagram, 32, 200, 16, &count); }
static void read_original(void) { status = rtpw_read_original(datagram, sizeof datagram, &original); }
static void write_original(void) { status = rtpw_write_original(datagram, sizeof datagram, 7); }
static void new_ids_to_retransmission(void) { rtpw_new_ids_to_retransmission(&map, &ids); }
static void new_ids_from_retransmission(void) { rtpw_new_ids_from_retransmission(&map, &ids); }
static void to_retransmission(void) {
    count = sizeof datagram - 2;
    status = rtpw_to_retransmission(datagram, sizeof datagram, &count, 7, 8, 9, &ids);
}
static void from_retransmission(void) {
    count = sizeof datagram;
    status = rtpw_from_retransmission(datagram, sizeof datagram, &count, 7, 8, &ids);
}
static void version(void) { number = rtpw_version(); }
static void read_send_time(void) { status = rtpw_read_send_time(bytes, 3, &units); }
static void write_send_time(void) { status = rtpw_write_send_time(0xFEDCBA, written, 3, &count); }
static void extend_send_time(void) { number = rtpw_extend_send_time((uint64_t)1 << 63, 7); }
static void read_transmission_offset(void) { status = rtpw_read_transmission_offset(bytes, 3, &offset); }
static void write_transmission_offset(void) { status = rtpw_write_transmission_offset(-90, written, 3, &count); }
static void read_frame_marking(void) { status = rtpw_read_frame_marking(bytes, 3, &marking); }
static void write_frame_marking(void) { status = rtpw_write_frame_marking(&marking, written, 3, &count); }
static void read_orientation(void) { status = rtpw_read_orientation(bytes, 1, &orientation); }
static void write_orientation(void) { status = rtpw_write_orientation(&orientation, written, 1, &count); }
static void is_token(void) { number = rtpw_is_token((const uint8_t *)LAST_URI, sizeof LAST_URI - 1); }
static void is_stream_id(void) { number = rtpw_is_stream_id((const uint8_t *)LAST_URI, sizeof LAST_URI - 1); }
static void read_timing(void) { status = rtpw_read_timing(bytes, 13, &timing); }
static void write_timing(void) { status = rtpw_write_timing(&timing, written, 13, &count); }
static void read_transport_number(void) { status = rtpw_read_transport_number(bytes, 4, &transport_number); }
static void write_transport_number(void) {
    status = rtpw_write_transport_number(&transport_number, written, 4, &count);
}
static void read_mixer_level(void) { status = rtpw_read_mixer_level(bytes, 28, 15, 14, &level); }
static void write_mixer_levels(void) { status = rtpw_write_mixer_levels(levels, 15, written, 15, &count); }
static void read_ntp_64(void) { status = rtpw_read_ntp_64(bytes, 8, &number); }
static void write_ntp_64(void) { status = rtpw_write_ntp_64(7, written, 8, &count); }
static void read_ntp_56(void) { status = rtpw_read_ntp_56(bytes, 7, &number); }
static void write_ntp_56(void) { status = rtpw_write_ntp_56(7, written, 7, &count); }
static void extend_ntp_56(void) { number = rtpw_extend_ntp_56((uint64_t)1 << 63, 7); }
static void read_color_space(void) { status = rtpw_read_color_space(bytes, 28, &color_space); }
static void write_color_space(void) { status = rtpw_write_color_space(&color_space, written, 28, &count); }
static void read_dependency_descriptor(void) { status = rtpw_read_dependency_descriptor(bytes, 4, &descriptor); }
static void write_dependency_descriptor(void) {
    status = rtpw_write_dependency_descriptor(&descriptor, written, 3, &count);
}
static void has_structure(void) { number = rtpw_has_structure(bytes, 4); }
static void extend_u8(void) { number = rtpw_extend_u8(70000, 99); }
static void extend_u15(void) { number = rtpw_extend_u15(70000, 99); }
static void extend_u16(void) { number = rtpw_extend_u16(70000, 99); }
static void extend_u32(void) { number = rtpw_extend_u32(70000, 99); }

static ucontext_t here, there;

static size_t taken_by(void (*call)(void), uint8_t *stack) {
    call(); /* once before, so that names are bound */
    packet_of_elements();
    memset(stack, PAINT, ROOM);
    CHECK(getcontext(&there) == 0);
    there.uc_stack.ss_sp = stack;
    there.uc_stack.ss_size = ROOM;
    there.uc_link = &here;
    makecontext(&there, call, 0);
    CHECK(swapcontext(&here, &there) == 0);
    size_t untouched = 0;
    while (untouched < ROOM && stack[untouched] == PAINT) {
        untouched++;
    }
    return ROOM - untouched;
}

#define CALL(name) {"rtpw_" #name, name}

int main(void) {
    static const struct {
        const char *name;
        void (*call)(void);
    } calls[] = {
        CALL(packet_parse), CALL(set_marker), CALL(set_payload_type), CALL(set_sequence_number),
        CALL(set_timestamp), CALL(set_ssrc), CALL(set_fields), CALL(set_csrc), CALL(set_element),
        CALL(remove_element), CALL(put_element), CALL(compact),
        CALL(add_element), CALL(change_form), CALL(remove_block), CALL(put_block),
        CALL(next_element), CALL(next_elements), CALL(last_element), CALL(receiver_start), CALL(receiver_number_of),
        CALL(receiver_accepts), CALL(receiver_record), CALL(receiver_receive), CALL(wide_receiver_start),
        CALL(wide_receiver_number_of), CALL(wide_receiver_accepts), CALL(wide_receiver_record),
        CALL(wide_receiver_receive), CALL(restarting_receive), CALL(wide_restarting_receive),
        CALL(receiver_standing_of), CALL(wide_receiver_standing_of), CALL(reception_record),
        CALL(reception_report), CALL(write_report), CALL(extend_u16),
        CALL(extend_u8), CALL(extend_u15), CALL(extend_u32), CALL(is_rtcp), CALL(set_padding), CALL(remove_padding),
        CALL(values_read), CALL(kind_of_uri), CALL(uri_of_kind), CALL(map_set), CALL(map_remove), CALL(map_get), CALL(map_standard), CALL(id_of), CALL(data_of),
        CALL(read), CALL(parse),
        CALL(parse_layers), CALL(wire_len), CALL(write), CALL(wire_len_layers), CALL(write_layers), CALL(left_out), CALL(left_out_layers), CALL(write_with), CALL(write_with_form),
        CALL(write_elements),
        CALL(read_fixed_part),
        CALL(write_fixed_part),
        CALL(write_data_elements),
        CALL(new_ids_between), CALL(renumber), CALL(pad), CALL(read_original), CALL(write_original), CALL(version),
        CALL(new_ids_to_retransmission), CALL(new_ids_from_retransmission), CALL(to_retransmission),
        CALL(from_retransmission), CALL(read_many), CALL(packet_parse_many), CALL(parse_many), CALL(receive_many),
        CALL(make_template), CALL(make_template_long), CALL(write_headers),
        CALL(prepare_group), CALL(make_from_group), CALL(make_from_group_long),
        CALL(read_send_time), CALL(write_send_time), CALL(extend_send_time),
        CALL(read_transmission_offset), CALL(write_transmission_offset), CALL(read_frame_marking), CALL(write_frame_marking),
        CALL(read_orientation), CALL(write_orientation), CALL(is_token), CALL(is_stream_id), CALL(read_timing), CALL(write_timing),
        CALL(read_transport_number), CALL(write_transport_number), CALL(read_mixer_level), CALL(write_mixer_levels),
        CALL(read_ntp_64), CALL(write_ntp_64), CALL(read_ntp_56), CALL(write_ntp_56), CALL(extend_ntp_56),
        CALL(read_color_space), CALL(write_color_space), CALL(read_dependency_descriptor),
        CALL(write_dependency_descriptor), CALL(has_structure),
    };
    memory stacks = memory_of(ROOM);
    for (int i = 0; i < 256; i++) {
        map.kind[i] = (uint8_t)i; /* each kind, and a layer allocation */
    }
    map.kind[14] = RTPW_KIND_LAYERS;
    give_all();
    uint8_t *stack = stacks.room;
    size_t nothing = taken_by(empty, stack), most = 0;
    const char *name = "";
    for (size_t i = 0; i < sizeof calls / sizeof *calls; i++) {
        size_t taken = taken_by(calls[i].call, stack) - nothing;
        if (getenv("SHOW_ALL") != NULL) {
            printf("%s %zu\n", calls[i].name, taken);
        }
        CHECK(taken <= 4096);
        if (taken > most) {
            most = taken;
            name = calls[i].name;
        }
    }
    printf("stack: at most %zu bytes, by %s\n", most, name);
    return 0;
}
