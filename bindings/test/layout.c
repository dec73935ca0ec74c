/* Made by bindings/described/make of bindings/c/rtp_wire.h. */
/* Where the fields of each struct lie on a machine of 64 bits, and the numbers of each constant. */
#include "../c/rtp_wire.h"

#ifdef __cplusplus
#define HOLDS(fact) static_assert(fact, #fact)
#else
#define HOLDS(fact) _Static_assert(fact, #fact)
#endif

HOLDS(sizeof(rtpw_packet) == 64);
HOLDS(offsetof(rtpw_packet, payload_at) == 0 && sizeof(((rtpw_packet *)0)->payload_at) == 8);
HOLDS(offsetof(rtpw_packet, payload_len) == 8 && sizeof(((rtpw_packet *)0)->payload_len) == 8);
HOLDS(offsetof(rtpw_packet, unpadded_len) == 16 && sizeof(((rtpw_packet *)0)->unpadded_len) == 8);
HOLDS(offsetof(rtpw_packet, body_at) == 24 && sizeof(((rtpw_packet *)0)->body_at) == 8);
HOLDS(offsetof(rtpw_packet, body_len) == 32 && sizeof(((rtpw_packet *)0)->body_len) == 8);
HOLDS(offsetof(rtpw_packet, timestamp) == 40 && sizeof(((rtpw_packet *)0)->timestamp) == 4);
HOLDS(offsetof(rtpw_packet, ssrc) == 44 && sizeof(((rtpw_packet *)0)->ssrc) == 4);
HOLDS(offsetof(rtpw_packet, sequence_number) == 48 && sizeof(((rtpw_packet *)0)->sequence_number) == 2);
HOLDS(offsetof(rtpw_packet, payload_type) == 50 && sizeof(((rtpw_packet *)0)->payload_type) == 1);
HOLDS(offsetof(rtpw_packet, csrc_count) == 51 && sizeof(((rtpw_packet *)0)->csrc_count) == 1);
HOLDS(offsetof(rtpw_packet, marker) == 52 && sizeof(((rtpw_packet *)0)->marker) == 1);
HOLDS(offsetof(rtpw_packet, has_padding) == 53 && sizeof(((rtpw_packet *)0)->has_padding) == 1);
HOLDS(offsetof(rtpw_packet, padding_fits) == 54 && sizeof(((rtpw_packet *)0)->padding_fits) == 1);
HOLDS(offsetof(rtpw_packet, block_form) == 55 && sizeof(((rtpw_packet *)0)->block_form) == 1);
HOLDS(offsetof(rtpw_packet, block_profile) == 56 && sizeof(((rtpw_packet *)0)->block_profile) == 2);

HOLDS(sizeof(rtpw_fields) == 20);
HOLDS(offsetof(rtpw_fields, timestamp) == 0 && sizeof(((rtpw_fields *)0)->timestamp) == 4);
HOLDS(offsetof(rtpw_fields, ssrc) == 4 && sizeof(((rtpw_fields *)0)->ssrc) == 4);
HOLDS(offsetof(rtpw_fields, sequence_number) == 8 && sizeof(((rtpw_fields *)0)->sequence_number) == 2);
HOLDS(offsetof(rtpw_fields, payload_type) == 10 && sizeof(((rtpw_fields *)0)->payload_type) == 1);
HOLDS(offsetof(rtpw_fields, marker) == 11 && sizeof(((rtpw_fields *)0)->marker) == 1);
HOLDS(offsetof(rtpw_fields, has_timestamp) == 12 && sizeof(((rtpw_fields *)0)->has_timestamp) == 1);
HOLDS(offsetof(rtpw_fields, has_ssrc) == 13 && sizeof(((rtpw_fields *)0)->has_ssrc) == 1);
HOLDS(offsetof(rtpw_fields, has_sequence_number) == 14 && sizeof(((rtpw_fields *)0)->has_sequence_number) == 1);
HOLDS(offsetof(rtpw_fields, has_payload_type) == 15 && sizeof(((rtpw_fields *)0)->has_payload_type) == 1);
HOLDS(offsetof(rtpw_fields, has_marker) == 16 && sizeof(((rtpw_fields *)0)->has_marker) == 1);

HOLDS(sizeof(rtpw_element) == 32);
HOLDS(offsetof(rtpw_element, data_at) == 0 && sizeof(((rtpw_element *)0)->data_at) == 8);
HOLDS(offsetof(rtpw_element, data_len) == 8 && sizeof(((rtpw_element *)0)->data_len) == 8);
HOLDS(offsetof(rtpw_element, end) == 16 && sizeof(((rtpw_element *)0)->end) == 8);
HOLDS(offsetof(rtpw_element, id) == 24 && sizeof(((rtpw_element *)0)->id) == 1);

HOLDS(sizeof(rtpw_map) == 256);
HOLDS(offsetof(rtpw_map, kind) == 0 && sizeof(((rtpw_map *)0)->kind) == 256);

HOLDS(sizeof(rtpw_time) == 16);
HOLDS(offsetof(rtpw_time, ticks) == 0 && sizeof(((rtpw_time *)0)->ticks) == 8);
HOLDS(offsetof(rtpw_time, hertz) == 8 && sizeof(((rtpw_time *)0)->hertz) == 4);

HOLDS(sizeof(rtpw_values) == 136);
HOLDS(offsetof(rtpw_values, send_time) == 0 && sizeof(((rtpw_values *)0)->send_time) == 8);
HOLDS(offsetof(rtpw_values, capture_time) == 8 && sizeof(((rtpw_values *)0)->capture_time) == 8);
HOLDS(offsetof(rtpw_values, capture_offset) == 16 && sizeof(((rtpw_values *)0)->capture_offset) == 8);
HOLDS(offsetof(rtpw_values, playout_delay_min) == 24 && sizeof(((rtpw_values *)0)->playout_delay_min) == 16);
HOLDS(offsetof(rtpw_values, playout_delay_max) == 40 && sizeof(((rtpw_values *)0)->playout_delay_max) == 16);
HOLDS(offsetof(rtpw_values, transmission_offset) == 56 && sizeof(((rtpw_values *)0)->transmission_offset) == 4);
HOLDS(offsetof(rtpw_values, frame_marking) == 60 && sizeof(((rtpw_values *)0)->frame_marking) == 4);
HOLDS(offsetof(rtpw_values, transport_number) == 64 && sizeof(((rtpw_values *)0)->transport_number) == 2);
HOLDS(offsetof(rtpw_values, video_orientation) == 66 && sizeof(((rtpw_values *)0)->video_orientation) == 2);
HOLDS(offsetof(rtpw_values, encode_start) == 68 && sizeof(((rtpw_values *)0)->encode_start) == 2);
HOLDS(offsetof(rtpw_values, encode_finish) == 70 && sizeof(((rtpw_values *)0)->encode_finish) == 2);
HOLDS(offsetof(rtpw_values, packetize_complete) == 72 && sizeof(((rtpw_values *)0)->packetize_complete) == 2);
HOLDS(offsetof(rtpw_values, last_left_pacer) == 74 && sizeof(((rtpw_values *)0)->last_left_pacer) == 2);
HOLDS(offsetof(rtpw_values, timing_flags) == 76 && sizeof(((rtpw_values *)0)->timing_flags) == 1);
HOLDS(offsetof(rtpw_values, video_content_type) == 77 && sizeof(((rtpw_values *)0)->video_content_type) == 1);
HOLDS(offsetof(rtpw_values, audio_level) == 78 && sizeof(((rtpw_values *)0)->audio_level) == 1);
HOLDS(offsetof(rtpw_values, voice_activity) == 79 && sizeof(((rtpw_values *)0)->voice_activity) == 1);
HOLDS(offsetof(rtpw_values, mid) == 80 && sizeof(((rtpw_values *)0)->mid) == 17);
HOLDS(offsetof(rtpw_values, rid) == 97 && sizeof(((rtpw_values *)0)->rid) == 9);
HOLDS(offsetof(rtpw_values, repaired_rid) == 106 && sizeof(((rtpw_values *)0)->repaired_rid) == 9);
HOLDS(offsetof(rtpw_values, has_send_time) == 115 && sizeof(((rtpw_values *)0)->has_send_time) == 1);
HOLDS(offsetof(rtpw_values, has_capture_time) == 116 && sizeof(((rtpw_values *)0)->has_capture_time) == 1);
HOLDS(offsetof(rtpw_values, has_capture_offset) == 117 && sizeof(((rtpw_values *)0)->has_capture_offset) == 1);
HOLDS(offsetof(rtpw_values, has_transmission_offset) == 118 && sizeof(((rtpw_values *)0)->has_transmission_offset) == 1);
HOLDS(offsetof(rtpw_values, has_frame_marking) == 119 && sizeof(((rtpw_values *)0)->has_frame_marking) == 1);
HOLDS(offsetof(rtpw_values, has_transport_number) == 120 && sizeof(((rtpw_values *)0)->has_transport_number) == 1);
HOLDS(offsetof(rtpw_values, has_video_orientation) == 121 && sizeof(((rtpw_values *)0)->has_video_orientation) == 1);
HOLDS(offsetof(rtpw_values, has_video_content_type) == 122 && sizeof(((rtpw_values *)0)->has_video_content_type) == 1);
HOLDS(offsetof(rtpw_values, has_audio_level) == 123 && sizeof(((rtpw_values *)0)->has_audio_level) == 1);
HOLDS(offsetof(rtpw_values, has_voice_activity) == 124 && sizeof(((rtpw_values *)0)->has_voice_activity) == 1);
HOLDS(offsetof(rtpw_values, has_playout_delay_min) == 125 && sizeof(((rtpw_values *)0)->has_playout_delay_min) == 1);
HOLDS(offsetof(rtpw_values, has_playout_delay_max) == 126 && sizeof(((rtpw_values *)0)->has_playout_delay_max) == 1);
HOLDS(offsetof(rtpw_values, has_video_timing) == 127 && sizeof(((rtpw_values *)0)->has_video_timing) == 1);
HOLDS(offsetof(rtpw_values, has_mid) == 128 && sizeof(((rtpw_values *)0)->has_mid) == 1);
HOLDS(offsetof(rtpw_values, has_rid) == 129 && sizeof(((rtpw_values *)0)->has_rid) == 1);
HOLDS(offsetof(rtpw_values, has_repaired_rid) == 130 && sizeof(((rtpw_values *)0)->has_repaired_rid) == 1);
HOLDS(offsetof(rtpw_values, has_layers) == 131 && sizeof(((rtpw_values *)0)->has_layers) == 1);

HOLDS(sizeof(rtpw_header) == 224);
HOLDS(offsetof(rtpw_header, header_len) == 0 && sizeof(((rtpw_header *)0)->header_len) == 8);
HOLDS(offsetof(rtpw_header, timestamp) == 8 && sizeof(((rtpw_header *)0)->timestamp) == 4);
HOLDS(offsetof(rtpw_header, ssrc) == 12 && sizeof(((rtpw_header *)0)->ssrc) == 4);
HOLDS(offsetof(rtpw_header, csrc) == 16 && sizeof(((rtpw_header *)0)->csrc) == 60);
HOLDS(offsetof(rtpw_header, sequence_number) == 76 && sizeof(((rtpw_header *)0)->sequence_number) == 2);
HOLDS(offsetof(rtpw_header, payload_type) == 78 && sizeof(((rtpw_header *)0)->payload_type) == 1);
HOLDS(offsetof(rtpw_header, csrc_count) == 79 && sizeof(((rtpw_header *)0)->csrc_count) == 1);
HOLDS(offsetof(rtpw_header, marker) == 80 && sizeof(((rtpw_header *)0)->marker) == 1);
HOLDS(offsetof(rtpw_header, has_padding) == 81 && sizeof(((rtpw_header *)0)->has_padding) == 1);
HOLDS(offsetof(rtpw_header, has_extension) == 82 && sizeof(((rtpw_header *)0)->has_extension) == 1);
HOLDS(offsetof(rtpw_header, values) == 88 && sizeof(((rtpw_header *)0)->values) == 136);

HOLDS(sizeof(rtpw_whole_packet) == 256);
HOLDS(offsetof(rtpw_whole_packet, header) == 0 && sizeof(((rtpw_whole_packet *)0)->header) == 224);
HOLDS(offsetof(rtpw_whole_packet, unpadded_len) == 224 && sizeof(((rtpw_whole_packet *)0)->unpadded_len) == 8);
HOLDS(offsetof(rtpw_whole_packet, body_at) == 232 && sizeof(((rtpw_whole_packet *)0)->body_at) == 8);
HOLDS(offsetof(rtpw_whole_packet, body_len) == 240 && sizeof(((rtpw_whole_packet *)0)->body_len) == 8);
HOLDS(offsetof(rtpw_whole_packet, block_profile) == 248 && sizeof(((rtpw_whole_packet *)0)->block_profile) == 2);
HOLDS(offsetof(rtpw_whole_packet, block_form) == 250 && sizeof(((rtpw_whole_packet *)0)->block_form) == 1);
HOLDS(offsetof(rtpw_whole_packet, padding_fits) == 251 && sizeof(((rtpw_whole_packet *)0)->padding_fits) == 1);

HOLDS(sizeof(rtpw_layer) == 40);
HOLDS(offsetof(rtpw_layer, kbps) == 0 && sizeof(((rtpw_layer *)0)->kbps) == 32);
HOLDS(offsetof(rtpw_layer, width) == 32 && sizeof(((rtpw_layer *)0)->width) == 2);
HOLDS(offsetof(rtpw_layer, height) == 34 && sizeof(((rtpw_layer *)0)->height) == 2);
HOLDS(offsetof(rtpw_layer, framerate) == 36 && sizeof(((rtpw_layer *)0)->framerate) == 1);
HOLDS(offsetof(rtpw_layer, has_resolution) == 37 && sizeof(((rtpw_layer *)0)->has_resolution) == 1);
HOLDS(offsetof(rtpw_layer, rates) == 38 && sizeof(((rtpw_layer *)0)->rates) == 1);

HOLDS(sizeof(rtpw_stream) == 168);
HOLDS(offsetof(rtpw_stream, layers) == 0 && sizeof(((rtpw_stream *)0)->layers) == 160);
HOLDS(offsetof(rtpw_stream, count) == 160 && sizeof(((rtpw_stream *)0)->count) == 1);

HOLDS(sizeof(rtpw_layers) == 680);
HOLDS(offsetof(rtpw_layers, streams) == 0 && sizeof(((rtpw_layers *)0)->streams) == 672);
HOLDS(offsetof(rtpw_layers, count) == 672 && sizeof(((rtpw_layers *)0)->count) == 1);
HOLDS(offsetof(rtpw_layers, current) == 673 && sizeof(((rtpw_layers *)0)->current) == 1);

HOLDS(sizeof(rtpw_frame_marking) == 10);
HOLDS(offsetof(rtpw_frame_marking, start) == 0 && sizeof(((rtpw_frame_marking *)0)->start) == 1);
HOLDS(offsetof(rtpw_frame_marking, end) == 1 && sizeof(((rtpw_frame_marking *)0)->end) == 1);
HOLDS(offsetof(rtpw_frame_marking, independent) == 2 && sizeof(((rtpw_frame_marking *)0)->independent) == 1);
HOLDS(offsetof(rtpw_frame_marking, discardable) == 3 && sizeof(((rtpw_frame_marking *)0)->discardable) == 1);
HOLDS(offsetof(rtpw_frame_marking, has_layers) == 4 && sizeof(((rtpw_frame_marking *)0)->has_layers) == 1);
HOLDS(offsetof(rtpw_frame_marking, base_layer_sync) == 5 && sizeof(((rtpw_frame_marking *)0)->base_layer_sync) == 1);
HOLDS(offsetof(rtpw_frame_marking, temporal_id) == 6 && sizeof(((rtpw_frame_marking *)0)->temporal_id) == 1);
HOLDS(offsetof(rtpw_frame_marking, layer_id) == 7 && sizeof(((rtpw_frame_marking *)0)->layer_id) == 1);
HOLDS(offsetof(rtpw_frame_marking, has_tl0_pic_idx) == 8 && sizeof(((rtpw_frame_marking *)0)->has_tl0_pic_idx) == 1);
HOLDS(offsetof(rtpw_frame_marking, tl0_pic_idx) == 9 && sizeof(((rtpw_frame_marking *)0)->tl0_pic_idx) == 1);

HOLDS(sizeof(rtpw_orientation) == 4);
HOLDS(offsetof(rtpw_orientation, turn) == 0 && sizeof(((rtpw_orientation *)0)->turn) == 2);
HOLDS(offsetof(rtpw_orientation, camera) == 2 && sizeof(((rtpw_orientation *)0)->camera) == 1);
HOLDS(offsetof(rtpw_orientation, flip) == 3 && sizeof(((rtpw_orientation *)0)->flip) == 1);

HOLDS(sizeof(rtpw_timing) == 14);
HOLDS(offsetof(rtpw_timing, encode_start) == 0 && sizeof(((rtpw_timing *)0)->encode_start) == 2);
HOLDS(offsetof(rtpw_timing, encode_finish) == 2 && sizeof(((rtpw_timing *)0)->encode_finish) == 2);
HOLDS(offsetof(rtpw_timing, packetize_complete) == 4 && sizeof(((rtpw_timing *)0)->packetize_complete) == 2);
HOLDS(offsetof(rtpw_timing, last_left_pacer) == 6 && sizeof(((rtpw_timing *)0)->last_left_pacer) == 2);
HOLDS(offsetof(rtpw_timing, network) == 8 && sizeof(((rtpw_timing *)0)->network) == 2);
HOLDS(offsetof(rtpw_timing, network2) == 10 && sizeof(((rtpw_timing *)0)->network2) == 2);
HOLDS(offsetof(rtpw_timing, flags) == 12 && sizeof(((rtpw_timing *)0)->flags) == 1);
HOLDS(offsetof(rtpw_timing, has_flags) == 13 && sizeof(((rtpw_timing *)0)->has_flags) == 1);

HOLDS(sizeof(rtpw_transport_number) == 6);
HOLDS(offsetof(rtpw_transport_number, number) == 0 && sizeof(((rtpw_transport_number *)0)->number) == 2);
HOLDS(offsetof(rtpw_transport_number, packets) == 2 && sizeof(((rtpw_transport_number *)0)->packets) == 2);
HOLDS(offsetof(rtpw_transport_number, has_request) == 4 && sizeof(((rtpw_transport_number *)0)->has_request) == 1);
HOLDS(offsetof(rtpw_transport_number, timestamps) == 5 && sizeof(((rtpw_transport_number *)0)->timestamps) == 1);

HOLDS(sizeof(rtpw_chromaticity) == 4);
HOLDS(offsetof(rtpw_chromaticity, x) == 0 && sizeof(((rtpw_chromaticity *)0)->x) == 2);
HOLDS(offsetof(rtpw_chromaticity, y) == 2 && sizeof(((rtpw_chromaticity *)0)->y) == 2);

HOLDS(sizeof(rtpw_hdr_metadata) == 24);
HOLDS(offsetof(rtpw_hdr_metadata, luminance_max) == 0 && sizeof(((rtpw_hdr_metadata *)0)->luminance_max) == 2);
HOLDS(offsetof(rtpw_hdr_metadata, luminance_min) == 2 && sizeof(((rtpw_hdr_metadata *)0)->luminance_min) == 2);
HOLDS(offsetof(rtpw_hdr_metadata, red) == 4 && sizeof(((rtpw_hdr_metadata *)0)->red) == 4);
HOLDS(offsetof(rtpw_hdr_metadata, green) == 8 && sizeof(((rtpw_hdr_metadata *)0)->green) == 4);
HOLDS(offsetof(rtpw_hdr_metadata, blue) == 12 && sizeof(((rtpw_hdr_metadata *)0)->blue) == 4);
HOLDS(offsetof(rtpw_hdr_metadata, white) == 16 && sizeof(((rtpw_hdr_metadata *)0)->white) == 4);
HOLDS(offsetof(rtpw_hdr_metadata, max_content_light_level) == 20 && sizeof(((rtpw_hdr_metadata *)0)->max_content_light_level) == 2);
HOLDS(offsetof(rtpw_hdr_metadata, max_frame_average_light_level) == 22 && sizeof(((rtpw_hdr_metadata *)0)->max_frame_average_light_level) == 2);

HOLDS(sizeof(rtpw_color_space) == 32);
HOLDS(offsetof(rtpw_color_space, hdr) == 0 && sizeof(((rtpw_color_space *)0)->hdr) == 24);
HOLDS(offsetof(rtpw_color_space, primaries) == 24 && sizeof(((rtpw_color_space *)0)->primaries) == 1);
HOLDS(offsetof(rtpw_color_space, transfer) == 25 && sizeof(((rtpw_color_space *)0)->transfer) == 1);
HOLDS(offsetof(rtpw_color_space, matrix) == 26 && sizeof(((rtpw_color_space *)0)->matrix) == 1);
HOLDS(offsetof(rtpw_color_space, range) == 27 && sizeof(((rtpw_color_space *)0)->range) == 1);
HOLDS(offsetof(rtpw_color_space, horizontal) == 28 && sizeof(((rtpw_color_space *)0)->horizontal) == 1);
HOLDS(offsetof(rtpw_color_space, vertical) == 29 && sizeof(((rtpw_color_space *)0)->vertical) == 1);
HOLDS(offsetof(rtpw_color_space, has_hdr) == 30 && sizeof(((rtpw_color_space *)0)->has_hdr) == 1);

HOLDS(sizeof(rtpw_dependency_descriptor) == 6);
HOLDS(offsetof(rtpw_dependency_descriptor, frame_number) == 0 && sizeof(((rtpw_dependency_descriptor *)0)->frame_number) == 2);
HOLDS(offsetof(rtpw_dependency_descriptor, start_of_frame) == 2 && sizeof(((rtpw_dependency_descriptor *)0)->start_of_frame) == 1);
HOLDS(offsetof(rtpw_dependency_descriptor, end_of_frame) == 3 && sizeof(((rtpw_dependency_descriptor *)0)->end_of_frame) == 1);
HOLDS(offsetof(rtpw_dependency_descriptor, template_id) == 4 && sizeof(((rtpw_dependency_descriptor *)0)->template_id) == 1);

HOLDS(sizeof(rtpw_new_ids) == 256);
HOLDS(offsetof(rtpw_new_ids, id) == 0 && sizeof(((rtpw_new_ids *)0)->id) == 256);

HOLDS(sizeof(rtpw_receiver) == 32);
HOLDS(offsetof(rtpw_receiver, highest) == 0 && sizeof(((rtpw_receiver *)0)->highest) == 8);
HOLDS(offsetof(rtpw_receiver, recorded_low) == 8 && sizeof(((rtpw_receiver *)0)->recorded_low) == 8);
HOLDS(offsetof(rtpw_receiver, recorded_high) == 16 && sizeof(((rtpw_receiver *)0)->recorded_high) == 8);
HOLDS(offsetof(rtpw_receiver, started) == 24 && sizeof(((rtpw_receiver *)0)->started) == 1);

HOLDS(sizeof(rtpw_wide_receiver) == 16);
HOLDS(offsetof(rtpw_wide_receiver, highest) == 0 && sizeof(((rtpw_wide_receiver *)0)->highest) == 8);
HOLDS(offsetof(rtpw_wide_receiver, started) == 8 && sizeof(((rtpw_wide_receiver *)0)->started) == 1);

HOLDS(sizeof(rtpw_restarting_receiver) == 32);
HOLDS(offsetof(rtpw_restarting_receiver, highest) == 0 && sizeof(((rtpw_restarting_receiver *)0)->highest) == 8);
HOLDS(offsetof(rtpw_restarting_receiver, words) == 8 && sizeof(((rtpw_restarting_receiver *)0)->words) == 16);
HOLDS(offsetof(rtpw_restarting_receiver, max_dropout) == 24 && sizeof(((rtpw_restarting_receiver *)0)->max_dropout) == 2);
HOLDS(offsetof(rtpw_restarting_receiver, next) == 26 && sizeof(((rtpw_restarting_receiver *)0)->next) == 2);
HOLDS(offsetof(rtpw_restarting_receiver, min_sequential) == 28 && sizeof(((rtpw_restarting_receiver *)0)->min_sequential) == 1);
HOLDS(offsetof(rtpw_restarting_receiver, in_row) == 29 && sizeof(((rtpw_restarting_receiver *)0)->in_row) == 1);
HOLDS(offsetof(rtpw_restarting_receiver, started) == 30 && sizeof(((rtpw_restarting_receiver *)0)->started) == 1);

HOLDS(sizeof(rtpw_reception) == 56);
HOLDS(offsetof(rtpw_reception, first) == 0 && sizeof(((rtpw_reception *)0)->first) == 8);
HOLDS(offsetof(rtpw_reception, highest) == 8 && sizeof(((rtpw_reception *)0)->highest) == 8);
HOLDS(offsetof(rtpw_reception, received) == 16 && sizeof(((rtpw_reception *)0)->received) == 8);
HOLDS(offsetof(rtpw_reception, received_before) == 24 && sizeof(((rtpw_reception *)0)->received_before) == 8);
HOLDS(offsetof(rtpw_reception, expected_before) == 32 && sizeof(((rtpw_reception *)0)->expected_before) == 8);
HOLDS(offsetof(rtpw_reception, scaled_jitter) == 40 && sizeof(((rtpw_reception *)0)->scaled_jitter) == 8);
HOLDS(offsetof(rtpw_reception, transit) == 48 && sizeof(((rtpw_reception *)0)->transit) == 4);

HOLDS(sizeof(rtpw_report) == 16);
HOLDS(offsetof(rtpw_report, fraction_lost) == 0 && sizeof(((rtpw_report *)0)->fraction_lost) == 1);
HOLDS(offsetof(rtpw_report, cumulative_lost) == 4 && sizeof(((rtpw_report *)0)->cumulative_lost) == 4);
HOLDS(offsetof(rtpw_report, extended_highest) == 8 && sizeof(((rtpw_report *)0)->extended_highest) == 4);
HOLDS(offsetof(rtpw_report, jitter) == 12 && sizeof(((rtpw_report *)0)->jitter) == 4);

HOLDS(sizeof(rtpw_wide_restarting_receiver) == 24);
HOLDS(offsetof(rtpw_wide_restarting_receiver, highest) == 0 && sizeof(((rtpw_wide_restarting_receiver *)0)->highest) == 8);
HOLDS(offsetof(rtpw_wide_restarting_receiver, max_dropout) == 8 && sizeof(((rtpw_wide_restarting_receiver *)0)->max_dropout) == 2);
HOLDS(offsetof(rtpw_wide_restarting_receiver, max_misorder) == 10 && sizeof(((rtpw_wide_restarting_receiver *)0)->max_misorder) == 2);
HOLDS(offsetof(rtpw_wide_restarting_receiver, next) == 12 && sizeof(((rtpw_wide_restarting_receiver *)0)->next) == 2);
HOLDS(offsetof(rtpw_wide_restarting_receiver, min_sequential) == 14 && sizeof(((rtpw_wide_restarting_receiver *)0)->min_sequential) == 1);
HOLDS(offsetof(rtpw_wide_restarting_receiver, in_row) == 15 && sizeof(((rtpw_wide_restarting_receiver *)0)->in_row) == 1);
HOLDS(offsetof(rtpw_wide_restarting_receiver, started) == 16 && sizeof(((rtpw_wide_restarting_receiver *)0)->started) == 1);

HOLDS(sizeof(rtpw_whole_datagram) == 280);
HOLDS(offsetof(rtpw_whole_datagram, at) == 0 && sizeof(((rtpw_whole_datagram *)0)->at) == 8);
HOLDS(offsetof(rtpw_whole_datagram, len) == 8 && sizeof(((rtpw_whole_datagram *)0)->len) == 8);
HOLDS(offsetof(rtpw_whole_datagram, packet) == 16 && sizeof(((rtpw_whole_datagram *)0)->packet) == 256);
HOLDS(offsetof(rtpw_whole_datagram, status) == 272 && sizeof(((rtpw_whole_datagram *)0)->status) == 4);

HOLDS(sizeof(rtpw_datagram) == 88);
HOLDS(offsetof(rtpw_datagram, at) == 0 && sizeof(((rtpw_datagram *)0)->at) == 8);
HOLDS(offsetof(rtpw_datagram, len) == 8 && sizeof(((rtpw_datagram *)0)->len) == 8);
HOLDS(offsetof(rtpw_datagram, packet) == 16 && sizeof(((rtpw_datagram *)0)->packet) == 64);
HOLDS(offsetof(rtpw_datagram, status) == 80 && sizeof(((rtpw_datagram *)0)->status) == 4);
HOLDS(offsetof(rtpw_datagram, is_rtcp) == 84 && sizeof(((rtpw_datagram *)0)->is_rtcp) == 1);

HOLDS(sizeof(rtpw_datagram_header) == 248);
HOLDS(offsetof(rtpw_datagram_header, at) == 0 && sizeof(((rtpw_datagram_header *)0)->at) == 8);
HOLDS(offsetof(rtpw_datagram_header, len) == 8 && sizeof(((rtpw_datagram_header *)0)->len) == 8);
HOLDS(offsetof(rtpw_datagram_header, header) == 16 && sizeof(((rtpw_datagram_header *)0)->header) == 224);
HOLDS(offsetof(rtpw_datagram_header, status) == 240 && sizeof(((rtpw_datagram_header *)0)->status) == 4);
HOLDS(offsetof(rtpw_datagram_header, is_rtcp) == 244 && sizeof(((rtpw_datagram_header *)0)->is_rtcp) == 1);

HOLDS(sizeof(rtpw_arrival) == 24);
HOLDS(offsetof(rtpw_arrival, receiver) == 0 && sizeof(((rtpw_arrival *)0)->receiver) == 8);
HOLDS(offsetof(rtpw_arrival, number) == 8 && sizeof(((rtpw_arrival *)0)->number) == 8);
HOLDS(offsetof(rtpw_arrival, sequence_number) == 16 && sizeof(((rtpw_arrival *)0)->sequence_number) == 2);
HOLDS(offsetof(rtpw_arrival, status) == 20 && sizeof(((rtpw_arrival *)0)->status) == 4);

HOLDS(sizeof(rtpw_template) == 88);
HOLDS(offsetof(rtpw_template, header_len) == 0 && sizeof(((rtpw_template *)0)->header_len) == 4);
HOLDS(offsetof(rtpw_template, data_at) == 4 && sizeof(((rtpw_template *)0)->data_at) == 64);
HOLDS(offsetof(rtpw_template, data_total) == 68 && sizeof(((rtpw_template *)0)->data_total) == 2);
HOLDS(offsetof(rtpw_template, count) == 70 && sizeof(((rtpw_template *)0)->count) == 1);
HOLDS(offsetof(rtpw_template, data_len) == 71 && sizeof(((rtpw_template *)0)->data_len) == 16);

HOLDS(sizeof(rtpw_group) == 550);
HOLDS(offsetof(rtpw_group, new_ids) == 0 && sizeof(((rtpw_group *)0)->new_ids) == 256);
HOLDS(offsetof(rtpw_group, numbers) == 256 && sizeof(((rtpw_group *)0)->numbers) == 256);
HOLDS(offsetof(rtpw_group, element_ids) == 512 && sizeof(((rtpw_group *)0)->element_ids) == 16);
HOLDS(offsetof(rtpw_group, data_lens) == 528 && sizeof(((rtpw_group *)0)->data_lens) == 16);
HOLDS(offsetof(rtpw_group, data_total) == 544 && sizeof(((rtpw_group *)0)->data_total) == 2);
HOLDS(offsetof(rtpw_group, count) == 546 && sizeof(((rtpw_group *)0)->count) == 1);
HOLDS(offsetof(rtpw_group, allowed) == 547 && sizeof(((rtpw_group *)0)->allowed) == 1);
HOLDS(offsetof(rtpw_group, one_byte) == 548 && sizeof(((rtpw_group *)0)->one_byte) == 1);

HOLDS(sizeof(rtpw_routed_header) == 48);
HOLDS(offsetof(rtpw_routed_header, data_at) == 0 && sizeof(((rtpw_routed_header *)0)->data_at) == 8);
HOLDS(offsetof(rtpw_routed_header, at) == 8 && sizeof(((rtpw_routed_header *)0)->at) == 8);
HOLDS(offsetof(rtpw_routed_header, fields) == 16 && sizeof(((rtpw_routed_header *)0)->fields) == 20);
HOLDS(offsetof(rtpw_routed_header, original_number) == 36 && sizeof(((rtpw_routed_header *)0)->original_number) == 2);
HOLDS(offsetof(rtpw_routed_header, is_retransmission) == 38 && sizeof(((rtpw_routed_header *)0)->is_retransmission) == 1);
HOLDS(offsetof(rtpw_routed_header, clears_padding) == 39 && sizeof(((rtpw_routed_header *)0)->clears_padding) == 1);
HOLDS(offsetof(rtpw_routed_header, status) == 40 && sizeof(((rtpw_routed_header *)0)->status) == 4);
HOLDS(offsetof(rtpw_routed_header, len) == 44 && sizeof(((rtpw_routed_header *)0)->len) == 4);

HOLDS(sizeof(rtpw_fixed_part) == 16);
HOLDS(offsetof(rtpw_fixed_part, version) == 0 && sizeof(((rtpw_fixed_part *)0)->version) == 1);
HOLDS(offsetof(rtpw_fixed_part, has_padding) == 1 && sizeof(((rtpw_fixed_part *)0)->has_padding) == 1);
HOLDS(offsetof(rtpw_fixed_part, has_extension) == 2 && sizeof(((rtpw_fixed_part *)0)->has_extension) == 1);
HOLDS(offsetof(rtpw_fixed_part, marker) == 3 && sizeof(((rtpw_fixed_part *)0)->marker) == 1);
HOLDS(offsetof(rtpw_fixed_part, payload_type) == 4 && sizeof(((rtpw_fixed_part *)0)->payload_type) == 1);
HOLDS(offsetof(rtpw_fixed_part, sequence_number) == 6 && sizeof(((rtpw_fixed_part *)0)->sequence_number) == 2);
HOLDS(offsetof(rtpw_fixed_part, timestamp) == 8 && sizeof(((rtpw_fixed_part *)0)->timestamp) == 4);
HOLDS(offsetof(rtpw_fixed_part, ssrc) == 12 && sizeof(((rtpw_fixed_part *)0)->ssrc) == 4);

HOLDS(sizeof(rtpw_layout) == 32);
HOLDS(offsetof(rtpw_layout, payload_at) == 0 && sizeof(((rtpw_layout *)0)->payload_at) == 8);
HOLDS(offsetof(rtpw_layout, unpadded_len) == 8 && sizeof(((rtpw_layout *)0)->unpadded_len) == 8);
HOLDS(offsetof(rtpw_layout, body_at) == 16 && sizeof(((rtpw_layout *)0)->body_at) == 8);
HOLDS(offsetof(rtpw_layout, block_profile) == 24 && sizeof(((rtpw_layout *)0)->block_profile) == 2);
HOLDS(offsetof(rtpw_layout, block_form) == 26 && sizeof(((rtpw_layout *)0)->block_form) == 1);
HOLDS(offsetof(rtpw_layout, csrc_count) == 27 && sizeof(((rtpw_layout *)0)->csrc_count) == 1);
HOLDS(offsetof(rtpw_layout, padding_fits) == 28 && sizeof(((rtpw_layout *)0)->padding_fits) == 1);

HOLDS(sizeof(rtpw_data_element) == 32);
HOLDS(offsetof(rtpw_data_element, id) == 0 && sizeof(((rtpw_data_element *)0)->id) == 1);
HOLDS(offsetof(rtpw_data_element, data) == 8 && sizeof(((rtpw_data_element *)0)->data) == 8);
HOLDS(offsetof(rtpw_data_element, data_len) == 16 && sizeof(((rtpw_data_element *)0)->data_len) == 8);
HOLDS(offsetof(rtpw_data_element, own) == 24 && sizeof(((rtpw_data_element *)0)->own) == 8);

HOLDS(RTPW_OK == 0);
HOLDS(RTPW_CUT_FIXED_PART == 1);
HOLDS(RTPW_OTHER_VERSION == 2);
HOLDS(RTPW_CUT_SOURCES == 3);
HOLDS(RTPW_CUT_BLOCK_HEADER == 4);
HOLDS(RTPW_UNKNOWN_FORM == 5);
HOLDS(RTPW_CUT_BLOCK == 6);
HOLDS(RTPW_SHORT_BUFFER == 8);
HOLDS(RTPW_BAD_FIELD == 9);
HOLDS(RTPW_REFUSED == 10);
HOLDS(RTPW_NONE == 11);
HOLDS(RTPW_RESTARTED == 12);
HOLDS(RTPW_BAD_ID == 13);
HOLDS(RTPW_FORM_NOT_ALLOWED == 14);
HOLDS(RTPW_LONG_BLOCK == 15);
HOLDS(RTPW_LONG_ID == 16);
HOLDS(RTPW_RTCP == 17);
HOLDS(RTPW_NO_BLOCK == 0);
HOLDS(RTPW_ONE_BYTE_FORM == 1);
HOLDS(RTPW_TWO_BYTE_FORM == 2);
HOLDS(RTPW_OTHER_FORM == 3);
HOLDS(RTPW_ANY_FORM == 0);
HOLDS(RTPW_KIND_NONE == 0);
HOLDS(RTPW_KIND_ABS_SEND_TIME == 1);
HOLDS(RTPW_KIND_ABS_CAPTURE_TIME == 2);
HOLDS(RTPW_KIND_AUDIO_LEVEL == 3);
HOLDS(RTPW_KIND_TRANSMISSION_OFFSET == 4);
HOLDS(RTPW_KIND_VIDEO_ORIENTATION == 5);
HOLDS(RTPW_KIND_TRANSPORT_NUMBER == 6);
HOLDS(RTPW_KIND_PLAYOUT_DELAY == 7);
HOLDS(RTPW_KIND_VIDEO_CONTENT_TYPE == 8);
HOLDS(RTPW_KIND_VIDEO_TIMING == 9);
HOLDS(RTPW_KIND_RID == 10);
HOLDS(RTPW_KIND_REPAIRED_RID == 11);
HOLDS(RTPW_KIND_MID == 12);
HOLDS(RTPW_KIND_FRAME_MARKING == 13);
HOLDS(RTPW_KIND_COLOR_SPACE == 14);
HOLDS(RTPW_KIND_LAYERS == 15);
HOLDS(RTPW_KIND_MIXER_LEVELS == 16);
HOLDS(RTPW_KIND_TRANSPORT_NUMBER_2 == 17);
HOLDS(RTPW_KIND_DEPENDENCY_DESCRIPTOR == 18);
HOLDS(RTPW_KIND_NTP_64 == 19);
HOLDS(RTPW_KIND_NTP_56 == 20);
HOLDS(RTPW_KIND_OWN == 128);
HOLDS(RTPW_CAMERA_FRONT == 0);
HOLDS(RTPW_CAMERA_BACK == 1);
HOLDS(RTPW_RANGE_UNKNOWN == 0);
HOLDS(RTPW_RANGE_LIMITED == 1);
HOLDS(RTPW_RANGE_FULL == 2);
HOLDS(RTPW_RANGE_DERIVED == 3);
HOLDS(RTPW_SITING_UNSPECIFIED == 0);
HOLDS(RTPW_SITING_COLLOCATED == 1);
HOLDS(RTPW_SITING_HALF == 2);
HOLDS(RTPW_NEW == 0);
HOLDS(RTPW_TAKEN == 1);
HOLDS(RTPW_TOO_OLD == 2);
HOLDS(RTPW_NO_WINDOW == 3);
HOLDS(RTPW_VERSION_NUMBER == 65792);
HOLDS(RTPW_CSRC_AT == 12);
HOLDS(RTPW_URI_SIZE == 87);
