/*
 * What a call of each function costs: costs.sh prints the table of docs/COSTS.md from what this program prints, the
 * nanoseconds of each by the least of some rounds, and from the instructions that callgrind counts in it.
 *
 * usage: costs CALLS [COUNT]      with COUNT: of the functions for many alone, with so many at once, at most 32
 */
#define _POSIX_C_SOURCE 199309L
#include <rtp_wire.h>
#include <stdio.h>
#include <stdlib.h>
#include <string.h>
#include <time.h>

/* A packet of 1,200 bytes, whose block in the one-byte form has a level, a send time, a transport number and a mid. */
static uint8_t packet[1200] = {0x90, 111,  0xB7, 0x98, 0,    0,    0x27, 0x10, 0,    0,    0,    0x2C, 0xBE, 0xDE, 0,    4,
                               0x10, 0xAA, 0x22, 0x0A, 0xBB, 0xCC, 0x31, 0,    7,    0x42, 'm',  'i',  'd'};
/* One with two sources and no block. */
static uint8_t mixed[32] = {0x82, 111, 0xB7, 0x98, 0, 0, 0x27, 0x10, 0, 0, 0, 0x2C};
static const uint8_t rtcp[8] = {0x80, 201, 0, 1};
static const char uri[] = "urn:ietf:params:rtp-hdrext:sdes:mid";
/* The first one, with room to become a retransmission. */
static uint8_t kept[sizeof packet + 2];
/* The first one: with the padding of its block put back before an element is added, with its block put back before that
 * is taken off, and in the other form with each call. */
static uint8_t added[sizeof packet], removed[sizeof packet], changed[sizeof packet + 4];
static size_t changed_len = sizeof packet;
static uint8_t form = RTPW_ONE_BYTE_FORM;
static uint8_t buf[1500];
static size_t len, count;
static uint32_t kinds;
static uint64_t number;
static rtpw_packet parts;
static rtpw_whole_packet whole;
static rtpw_header header, written;
static rtpw_values values;
static rtpw_element element, listed[8];
static rtpw_fixed_part fixed = {2, 0, 1, 0, 111, 47000, 10000, 44};
static rtpw_layout layout;
/* Where the data of the elements of the first packet lie. */
static const rtpw_data_element lying[] = {
    {1, packet + 17, 1, 0}, {2, packet + 19, 3, 0}, {3, packet + 23, 2, 0}, {4, packet + 26, 3, 0}};
static rtpw_layers layers, given_layers;
static rtpw_map map, other_map, layers_map;
static rtpw_new_ids ids, repaired_ids;
static rtpw_receiver receiver;
static rtpw_wide_receiver wide;
static uint64_t words[16], wide_number;
static rtpw_restarting_receiver restarting;
static uint64_t restarting_number;
static rtpw_reception reception;
static uint64_t recorded;
static rtpw_report report;
static rtpw_wide_restarting_receiver wide_restarting;
static uint64_t restarting_words[16], wide_restarting_number;
static rtpw_fields fields;
/* Data of each value that a standard lays out: of a color space with HDR metadata, and of the others their first bytes. */
static const uint8_t data[28] = {1, 1, 1, 0x24, 5, 6, 7, 8, 9, 10, 11, 12, 13};
static const int8_t levels[2] = {-10, -127};
static rtpw_frame_marking marking;
static rtpw_orientation orientation;
static rtpw_timing timing;
static rtpw_transport_number transport_number;
static rtpw_color_space color_space;
static rtpw_dependency_descriptor descriptor;
static uint64_t ntp;
static int32_t offset;
static uint32_t units;
static int8_t level;

/* Many at once: datagrams that are the packet, and the next numbers of a receiver that is put back before each call. */
enum { MOST = 32 };
static size_t at_once = MOST;
static uint8_t packets[MOST][sizeof packet];
static rtpw_datagram datagrams[MOST];
static rtpw_datagram_header datagram_headers[MOST];
static rtpw_whole_datagram wholes[MOST];
static rtpw_arrival arrivals[MOST];
static rtpw_receiver before, after;
/* The header of the packet for receivers of a transport number and a send time of their own, and these receivers. */
static uint8_t group[1024];
static rtpw_element group_puts[2];
static rtpw_new_ids group_ids;
static rtpw_template made;
static rtpw_group prepared;
static rtpw_routed_header receivers[MOST];

/* The status of a call that is timed may be any. */
static volatile int64_t sink;

enum { BODY_AT = 16, BODY_LEN = 16 };
static uint8_t body[BODY_LEN];

#define MANY(X)                                                                                                       \
    X(rtpw_read_many, (rtpw_read_many(packets[0], sizeof packets, &map, wholes, at_once), 0))                         \
    X(rtpw_packet_parse_many, (rtpw_packet_parse_many(packets[0], sizeof packets, datagrams, at_once), 0))            \
    X(rtpw_parse_many, (rtpw_parse_many(packets[0], sizeof packets, &map, datagram_headers, at_once), 0))             \
    X(rtpw_receive_many, (after = before, rtpw_receive_many(&after, 1, arrivals, at_once), 0))                        \
    X(rtpw_write_headers,                                                                                             \
      rtpw_write_headers(&made, group, sizeof group, data, sizeof data, receivers, at_once, packets[0], sizeof packets))

#define CALLS(X)                                                                                                      \
    X(rtpw_version, rtpw_version())                                                                                   \
    X(rtpw_is_rtcp, rtpw_is_rtcp(rtcp, sizeof rtcp))                                                                  \
    X(rtpw_read, rtpw_read(packet, sizeof packet, &map, &whole))                                                      \
    X(rtpw_packet_parse, rtpw_packet_parse(packet, sizeof packet, &parts))                                            \
    X(rtpw_read_fixed_part, rtpw_read_fixed_part(packet, sizeof packet, &fixed, &layout))                             \
    X(rtpw_parse, rtpw_parse(packet, sizeof packet, &map, &header))                                                   \
    X(rtpw_parse_layers, rtpw_parse_layers(packet, sizeof packet, &map, &header, &layers))                            \
    X(rtpw_values_read, rtpw_values_read(packet + BODY_AT, BODY_LEN, RTPW_ONE_BYTE_FORM, &map, &values))              \
    X(rtpw_next_element, rtpw_next_element(packet + BODY_AT, BODY_LEN, RTPW_ONE_BYTE_FORM, 0, &element))              \
    X(rtpw_next_elements, rtpw_next_elements(packet + BODY_AT, BODY_LEN, RTPW_ONE_BYTE_FORM, 0, listed, 8))            \
    X(rtpw_last_element, rtpw_last_element(packet + BODY_AT, BODY_LEN, RTPW_ONE_BYTE_FORM, 3, &element))              \
    X(rtpw_set_marker, rtpw_set_marker(packet, sizeof packet, false))                                                 \
    X(rtpw_set_payload_type, rtpw_set_payload_type(packet, sizeof packet, 111))                                       \
    X(rtpw_set_sequence_number, rtpw_set_sequence_number(packet, sizeof packet, 47000))                               \
    X(rtpw_set_timestamp, rtpw_set_timestamp(packet, sizeof packet, 10000))                                           \
    X(rtpw_set_ssrc, rtpw_set_ssrc(packet, sizeof packet, 44))                                                        \
    X(rtpw_set_fields, rtpw_set_fields(packet, sizeof packet, &fields))                                               \
    X(rtpw_set_element, rtpw_set_element(packet, sizeof packet, 3, rtcp, 2))                                          \
    X(rtpw_remove_element, rtpw_remove_element(packet, sizeof packet, 9))                                             \
    X(rtpw_put_element, (len = sizeof packet, rtpw_put_element(packet, sizeof packet, &len, 3, rtcp, 2, RTPW_ANY_FORM))) \
    X(rtpw_add_element, (len = sizeof added, memset(added + 29, 0, 3),                                                \
      rtpw_add_element(added, sizeof added, &len, 5, rtcp, 2, RTPW_ANY_FORM)))                                        \
    X(rtpw_compact, (len = sizeof packet, rtpw_compact(packet, sizeof packet, &len)))                                  \
    X(rtpw_change_form, (form ^= 3, rtpw_change_form(changed, sizeof changed, &changed_len, form)))                   \
    X(rtpw_remove_block, (len = sizeof removed, memcpy(removed, packet, 16),                                          \
      rtpw_remove_block(removed, sizeof removed, &len)))                                                              \
    X(rtpw_put_block, (len = sizeof packet, rtpw_put_block(packet, sizeof packet, &len, 0xBEDE, body, BODY_LEN)))     \
    X(rtpw_set_csrc, rtpw_set_csrc(mixed, sizeof mixed, 1, 7))                                                        \
    X(rtpw_renumber, rtpw_renumber(packet, sizeof packet, &ids))                                                      \
    X(rtpw_set_padding, rtpw_set_padding(packet, sizeof packet, false))                                               \
    X(rtpw_remove_padding, rtpw_remove_padding(packet, sizeof packet, &len))                                          \
    X(rtpw_wire_len, rtpw_wire_len(&map, &written, &len))                                                             \
    X(rtpw_write, rtpw_write(&map, &written, buf, sizeof buf, &len))                                                  \
    X(rtpw_wire_len_layers, rtpw_wire_len_layers(&layers_map, &written, &given_layers, &len))                         \
    X(rtpw_write_layers, rtpw_write_layers(&layers_map, &written, &given_layers, buf, sizeof buf, &len))              \
    X(rtpw_left_out, rtpw_left_out(&map, &written, &kinds))                                                           \
    X(rtpw_left_out_layers, rtpw_left_out_layers(&layers_map, &written, &given_layers, &kinds))                       \
    X(rtpw_write_with, rtpw_write_with(&written, rtcp, sizeof rtcp, &element, 1, buf, sizeof buf, &len))              \
    X(rtpw_write_with_form, rtpw_write_with_form(&written, rtcp, sizeof rtcp, &element, 1, 2, buf, sizeof buf, &len)) \
    X(rtpw_write_fixed_part, rtpw_write_fixed_part(&fixed, buf, sizeof buf))                                          \
    X(rtpw_write_data_elements, rtpw_write_data_elements(&fixed, lying, 4, RTPW_ONE_BYTE_FORM, buf, sizeof buf, &len)) \
    X(rtpw_write_elements, rtpw_write_elements(rtcp, sizeof rtcp, &element, 1, RTPW_ONE_BYTE_FORM, buf, sizeof buf, &len)) \
    X(rtpw_kind_of_uri, rtpw_kind_of_uri((const uint8_t *)uri, sizeof uri - 1))                                       \
    X(rtpw_uri_of_kind, rtpw_uri_of_kind(RTPW_KIND_MID, buf, sizeof buf, &len))                                        \
    X(rtpw_map_set, rtpw_map_set(&other_map, 3, RTPW_KIND_AUDIO_LEVEL))                                               \
    X(rtpw_map_remove, (rtpw_map_remove(&other_map, 3), 0))                                                           \
    X(rtpw_map_get, rtpw_map_get(&map, 3))                                                                            \
    X(rtpw_map_standard, (rtpw_map_standard(&other_map), 0))                                                          \
    X(rtpw_id_of, rtpw_id_of(&map, RTPW_KIND_VIDEO_ORIENTATION))                                                      \
    X(rtpw_data_of, rtpw_data_of(RTPW_KIND_AUDIO_LEVEL, &written.values, buf, sizeof buf, &len))                      \
    X(rtpw_read_send_time, rtpw_read_send_time(data, 3, &units))                                                      \
    X(rtpw_write_send_time, rtpw_write_send_time(0xFEDCBA, buf, sizeof buf, &len))                                    \
    X(rtpw_extend_send_time, rtpw_extend_send_time(number, units))                                                    \
    X(rtpw_read_transmission_offset, rtpw_read_transmission_offset(data, 3, &offset))                                 \
    X(rtpw_write_transmission_offset, rtpw_write_transmission_offset(-90, buf, sizeof buf, &len))                     \
    X(rtpw_read_frame_marking, rtpw_read_frame_marking(data, 3, &marking))                                            \
    X(rtpw_write_frame_marking, rtpw_write_frame_marking(&marking, buf, sizeof buf, &len))                            \
    X(rtpw_read_orientation, rtpw_read_orientation(data, 1, &orientation))                                            \
    X(rtpw_write_orientation, rtpw_write_orientation(&orientation, buf, sizeof buf, &len))                            \
    X(rtpw_is_token, rtpw_is_token(packet + 26, 3))                                                                   \
    X(rtpw_is_stream_id, rtpw_is_stream_id(packet + 26, 3))                                                           \
    X(rtpw_read_timing, rtpw_read_timing(data, 13, &timing))                                                          \
    X(rtpw_write_timing, rtpw_write_timing(&timing, buf, sizeof buf, &len))                                           \
    X(rtpw_read_transport_number, rtpw_read_transport_number(data, 4, &transport_number))                             \
    X(rtpw_write_transport_number, rtpw_write_transport_number(&transport_number, buf, sizeof buf, &len))             \
    X(rtpw_read_mixer_level, rtpw_read_mixer_level(data, 2, 2, 1, &level))                                            \
    X(rtpw_write_mixer_levels, rtpw_write_mixer_levels(levels, 2, buf, sizeof buf, &len))                             \
    X(rtpw_read_ntp_64, rtpw_read_ntp_64(data, 8, &ntp))                                                              \
    X(rtpw_write_ntp_64, rtpw_write_ntp_64(number, buf, sizeof buf, &len))                                            \
    X(rtpw_read_ntp_56, rtpw_read_ntp_56(data, 7, &ntp))                                                              \
    X(rtpw_write_ntp_56, rtpw_write_ntp_56(number, buf, sizeof buf, &len))                                            \
    X(rtpw_extend_ntp_56, rtpw_extend_ntp_56(number, ntp))                                                            \
    X(rtpw_read_color_space, rtpw_read_color_space(data, sizeof data, &color_space))                                  \
    X(rtpw_write_color_space, rtpw_write_color_space(&color_space, buf, sizeof buf, &len))                            \
    X(rtpw_read_dependency_descriptor, rtpw_read_dependency_descriptor(data, 3, &descriptor))                         \
    X(rtpw_write_dependency_descriptor, rtpw_write_dependency_descriptor(&descriptor, buf, sizeof buf, &len))         \
    X(rtpw_has_structure, rtpw_has_structure(data, sizeof data))                                                      \
    X(rtpw_new_ids_between, (rtpw_new_ids_between(&map, &map, &ids), 0))                                              \
    X(rtpw_new_ids_to_retransmission, (rtpw_new_ids_to_retransmission(&map, &repaired_ids), 0))                       \
    X(rtpw_new_ids_from_retransmission, (rtpw_new_ids_from_retransmission(&map, &repaired_ids), 0))                   \
    X(rtpw_to_retransmission,                                                                                         \
      (len = sizeof packet, rtpw_to_retransmission(kept, sizeof kept, &len, 45, 97, 7, &repaired_ids)))               \
    X(rtpw_from_retransmission,                                                                                       \
      (len = sizeof kept, rtpw_from_retransmission(kept, sizeof kept, &len, 44, 96, &repaired_ids)))                  \
    X(rtpw_pad, rtpw_pad(buf, sizeof buf, 32, 100, 16, &count))                                                       \
    X(rtpw_read_original, rtpw_read_original(packet + 32, sizeof packet - 32, &parts.sequence_number))                \
    X(rtpw_write_original, rtpw_write_original(buf, sizeof buf, 47000))                                               \
    X(rtpw_receiver_start, rtpw_receiver_start(&receiver, 1))                                                         \
    X(rtpw_receiver_number_of, rtpw_receiver_number_of(&receiver, (uint16_t)(number + 1)))                            \
    X(rtpw_receiver_accepts, rtpw_receiver_accepts(&receiver, number + 1))                                            \
    X(rtpw_receiver_standing_of, rtpw_receiver_standing_of(&receiver, number))                                        \
    X(rtpw_receiver_record, (rtpw_receiver_record(&receiver, ++number), 0))                                           \
    X(rtpw_receiver_receive, rtpw_receiver_receive(&receiver, (uint16_t)(number + 1), &number))                       \
    X(rtpw_wide_receiver_start, rtpw_wide_receiver_start(&wide, 1))                                                   \
    X(rtpw_wide_receiver_number_of, rtpw_wide_receiver_number_of(&wide, (uint16_t)(wide_number + 1)))                 \
    X(rtpw_wide_receiver_accepts, rtpw_wide_receiver_accepts(&wide, words, 16, wide_number + 1))                      \
    X(rtpw_wide_receiver_standing_of, rtpw_wide_receiver_standing_of(&wide, words, 16, wide_number))                  \
    X(rtpw_wide_receiver_record, rtpw_wide_receiver_record(&wide, words, 16, ++wide_number))                          \
    X(rtpw_wide_receiver_receive, rtpw_wide_receiver_receive(&wide, words, 16, (uint16_t)(wide_number + 1), &wide_number))\
    X(rtpw_restarting_receive, rtpw_restarting_receive(&restarting, (uint16_t)(restarting_number + 1), &restarting_number))\
    X(rtpw_reception_record, (++recorded, rtpw_reception_record(&reception, recorded, (uint32_t)recorded, 7), 0))     \
    X(rtpw_reception_report, (reception.received_before = 0, rtpw_reception_report(&reception, &report)))             \
    X(rtpw_write_report, rtpw_write_report(&report, 44, 2, 3, buf, sizeof buf, &len))                                 \
    X(rtpw_wide_restarting_receive, rtpw_wide_restarting_receive(&wide_restarting, restarting_words, 16,              \
      (uint16_t)(wide_restarting_number + 1), &wide_restarting_number))                                               \
    MANY(X)                                                                                                           \
    X(rtpw_make_template, rtpw_make_template(packet, sizeof packet, &group_ids, data, sizeof data, group_puts, 2,           \
      RTPW_ANY_FORM, group, sizeof group, &made))                                                                     \
    X(rtpw_prepare_group, rtpw_prepare_group(&group_ids, group_puts, 2, RTPW_ANY_FORM, &prepared))                    \
    X(rtpw_make_from_group, rtpw_make_from_group(&prepared, packet, sizeof packet, group, sizeof group, &made))       \
    X(rtpw_extend_u8, rtpw_extend_u8(number, 7))                                                                      \
    X(rtpw_extend_u15, rtpw_extend_u15(number, 7))                                                                    \
    X(rtpw_extend_u16, rtpw_extend_u16(number, 7))                                                                    \
    X(rtpw_extend_u32, rtpw_extend_u32(number, 7))

#define RUN(name, call)                                                                                               \
    static void run_##name(long calls) {                                                                              \
        while (calls-- > 0) sink = (int64_t)(call);                                                                   \
    }
CALLS(RUN)

static void run_nothing(long calls) {
    while (calls-- > 0) sink = 0;
}

static double nanoseconds(void (*run)(long), long calls) {
    double least = 0;
    int round;
    for (round = 0; round < 9; round++) {
        struct timespec from, to;
        double took;
        clock_gettime(CLOCK_MONOTONIC, &from);
        run(calls);
        clock_gettime(CLOCK_MONOTONIC, &to);
        took = ((double)(to.tv_sec - from.tv_sec) * 1e9 + (double)(to.tv_nsec - from.tv_nsec)) / (double)calls;
        if (round == 0 || took < least) least = took;
    }
    return least;
}

int main(int argc, char **argv) {
    long calls = argc == 2 || argc == 3 ? atol(argv[1]) : 0;
    double nothing;
    int stream, i;
    if (argc == 3) at_once = (size_t)atol(argv[2]);
    if (calls < 1 || at_once < 1 || at_once > MOST) {
        fputs("usage: costs CALLS [COUNT]\n", stderr);
        return 2;
    }
    rtpw_map_standard(&map);
    rtpw_new_ids_between(&map, &map, &ids);
    memcpy(kept, packet, sizeof packet);
    memcpy(added, packet, sizeof packet);
    memcpy(removed, packet, sizeof packet);
    memcpy(changed, packet, sizeof packet);
    memcpy(body, packet + BODY_AT, sizeof body);
    memset(&fields, 1, sizeof fields);
    if (rtpw_parse(packet, sizeof packet, &map, &written) != RTPW_OK || rtpw_receiver_start(&receiver, 1) != RTPW_OK) return 1;
    /* three streams of a layer of three rates, which the map has beside the usual kinds */
    layers_map = map;
    layers_map.kind[5] = RTPW_KIND_LAYERS;
    given_layers.count = 3;
    for (stream = 0; stream < 3; stream++) {
        rtpw_layer *layer = &given_layers.streams[stream].layers[0];
        given_layers.streams[stream].count = 1;
        layer->rates = 3;
        layer->kbps[0] = 300;
        layer->kbps[1] = 500;
        layer->kbps[2] = 700;
    }
    before.highest = 99;
    before.recorded_low = before.started = 1;
    for (i = 0; i < MOST; i++) {
        memcpy(packets[i], packet, sizeof packet);
        datagrams[i].at = datagram_headers[i].at = wholes[i].at = (size_t)i * sizeof packet;
        datagrams[i].len = datagram_headers[i].len = wholes[i].len = sizeof packet;
        arrivals[i].sequence_number = (uint16_t)(100 + i);
        receivers[i].fields.has_ssrc = receivers[i].fields.has_sequence_number = 1;
        receivers[i].fields.has_timestamp = 1;
    }
    element.id = 3;
    element.data_len = 2;
    group_puts[0].id = 3;
    group_puts[0].data_len = 2;
    group_puts[1].id = 2;
    group_puts[1].data_len = 3;
    for (i = 0; i < 15; i++) group_ids.id[i] = (uint8_t)i;
    if (rtpw_prepare_group(&group_ids, group_puts, 2, RTPW_ANY_FORM, &prepared) != RTPW_OK) return 1;
    if (rtpw_make_template(packet, sizeof packet, &group_ids, data, sizeof data, group_puts, 2, RTPW_ANY_FORM, group, sizeof group, &made) != RTPW_OK) return 1;
    nothing = nanoseconds(run_nothing, calls);
#define PRINT(name, call) printf(#name " %.1f\n", nanoseconds(run_##name, calls) - nothing);
    if (argc == 3) {
        MANY(PRINT)
        return 0;
    }
    CALLS(PRINT)
    return 0;
}
