// Made by bindings/described/make of bindings/c/rtp_wire.h.

//! The structs of `rtp_wire.h`.
#![allow(dead_code, unused_imports)]

use core::mem::offset_of;

pub use crate::reception::ReceptionReport;
pub use crate::standard::Chromaticity;
pub use crate::standard::HdrMetadata;

/// `rtpw_packet` in C.
#[repr(C)]
#[derive(Clone, Copy, Debug, Default, PartialEq, Eq, Hash)]
pub struct PacketParts {
    pub(crate) payload_at: usize,
    pub(crate) payload_len: usize,
    pub(crate) unpadded_len: usize,
    pub(crate) body_at: usize,
    pub(crate) body_len: usize,
    pub(crate) timestamp: u32,
    pub(crate) ssrc: u32,
    pub(crate) sequence_number: u16,
    pub(crate) payload_type: u8,
    pub(crate) csrc_count: u8,
    pub(crate) marker: u8,
    pub(crate) has_padding: u8,
    pub(crate) padding_fits: u8,
    pub(crate) block_form: u8,
    pub(crate) block_profile: u16,
}

/// `rtpw_fields` in C.
#[repr(C)]
#[derive(Clone, Copy, Debug, Default, PartialEq, Eq, Hash)]
pub struct FieldsView {
    pub(crate) timestamp: u32,
    pub(crate) ssrc: u32,
    pub(crate) sequence_number: u16,
    pub(crate) payload_type: u8,
    pub(crate) marker: u8,
    pub(crate) has_timestamp: u8,
    pub(crate) has_ssrc: u8,
    pub(crate) has_sequence_number: u8,
    pub(crate) has_payload_type: u8,
    pub(crate) has_marker: u8,
}

/// `rtpw_element` in C.
#[repr(C)]
#[derive(Clone, Copy, Debug, Default, PartialEq, Eq, Hash)]
pub struct Place {
    pub(crate) data_at: usize,
    pub(crate) data_len: usize,
    pub(crate) end: usize,
    pub(crate) id: u8,
}

/// `rtpw_map` in C.
#[repr(C)]
#[derive(Clone, Copy, Debug, PartialEq, Eq, Hash)]
pub struct StoredMap {
    pub(crate) kind: [u8; 256],
}

/// `rtpw_time` in C.
#[repr(C)]
#[derive(Clone, Copy, Debug, Default, PartialEq, Eq, Hash)]
pub struct Time {
    pub(crate) ticks: u64,
    pub(crate) hertz: u32,
}

/// `rtpw_values` in C.
#[repr(C)]
#[derive(Clone, Copy, Debug, Default, PartialEq, Eq, Hash)]
pub struct ValuesView {
    pub(crate) send_time: u64,
    pub(crate) capture_time: u64,
    pub(crate) capture_offset: i64,
    pub(crate) playout_delay_min: Time,
    pub(crate) playout_delay_max: Time,
    pub(crate) transmission_offset: u32,
    pub(crate) frame_marking: u32,
    pub(crate) transport_number: u16,
    pub(crate) video_orientation: u16,
    pub(crate) encode_start: u16,
    pub(crate) encode_finish: u16,
    pub(crate) packetize_complete: u16,
    pub(crate) last_left_pacer: u16,
    pub(crate) timing_flags: u8,
    pub(crate) video_content_type: u8,
    pub(crate) audio_level: i8,
    pub(crate) voice_activity: u8,
    pub(crate) mid: [u8; 17],
    pub(crate) rid: [u8; 9],
    pub(crate) repaired_rid: [u8; 9],
    pub(crate) has_send_time: u8,
    pub(crate) has_capture_time: u8,
    pub(crate) has_capture_offset: u8,
    pub(crate) has_transmission_offset: u8,
    pub(crate) has_frame_marking: u8,
    pub(crate) has_transport_number: u8,
    pub(crate) has_video_orientation: u8,
    pub(crate) has_video_content_type: u8,
    pub(crate) has_audio_level: u8,
    pub(crate) has_voice_activity: u8,
    pub(crate) has_playout_delay_min: u8,
    pub(crate) has_playout_delay_max: u8,
    pub(crate) has_video_timing: u8,
    pub(crate) has_mid: u8,
    pub(crate) has_rid: u8,
    pub(crate) has_repaired_rid: u8,
    pub(crate) has_layers: u8,
}

/// `rtpw_header` in C.
#[repr(C)]
#[derive(Clone, Copy, Debug, Default, PartialEq, Eq, Hash)]
pub struct HeaderView {
    pub(crate) header_len: usize,
    pub(crate) timestamp: u32,
    pub(crate) ssrc: u32,
    pub(crate) csrc: [u32; 15],
    pub(crate) sequence_number: u16,
    pub(crate) payload_type: u8,
    pub(crate) csrc_count: u8,
    pub(crate) marker: u8,
    pub(crate) has_padding: u8,
    pub(crate) has_extension: u8,
    pub(crate) values: ValuesView,
}

/// `rtpw_whole_packet` in C.
#[repr(C)]
#[derive(Clone, Copy, Debug, Default, PartialEq, Eq, Hash)]
pub struct WholePacket {
    pub(crate) header: HeaderView,
    pub(crate) unpadded_len: usize,
    pub(crate) body_at: usize,
    pub(crate) body_len: usize,
    pub(crate) block_profile: u16,
    pub(crate) block_form: u8,
    pub(crate) padding_fits: u8,
}

/// `rtpw_layer` in C.
#[repr(C)]
#[derive(Clone, Copy, Debug, Default, PartialEq, Eq, Hash)]
pub struct Layer {
    pub(crate) kbps: [u64; 4],
    pub(crate) width: u16,
    pub(crate) height: u16,
    pub(crate) framerate: u8,
    pub(crate) has_resolution: u8,
    pub(crate) rates: u8,
}

/// `rtpw_stream` in C.
#[repr(C)]
#[derive(Clone, Copy, Debug, Default, PartialEq, Eq, Hash)]
pub struct Stream {
    pub(crate) layers: [Layer; 4],
    pub(crate) count: u8,
}

/// `rtpw_layers` in C.
#[repr(C)]
#[derive(Clone, Copy, Debug, Default, PartialEq, Eq, Hash)]
pub struct Layers {
    pub(crate) streams: [Stream; 4],
    pub(crate) count: u8,
    pub(crate) current: u8,
}

/// `rtpw_frame_marking` in C.
#[repr(C)]
#[derive(Clone, Copy, Debug, Default, PartialEq, Eq, Hash)]
pub struct FrameMarkingView {
    pub(crate) start: u8,
    pub(crate) end: u8,
    pub(crate) independent: u8,
    pub(crate) discardable: u8,
    pub(crate) has_layers: u8,
    pub(crate) base_layer_sync: u8,
    pub(crate) temporal_id: u8,
    pub(crate) layer_id: u8,
    pub(crate) has_tl0_pic_idx: u8,
    pub(crate) tl0_pic_idx: u8,
}

/// `rtpw_orientation` in C.
#[repr(C)]
#[derive(Clone, Copy, Debug, Default, PartialEq, Eq, Hash)]
pub struct OrientationView {
    pub(crate) turn: u16,
    pub(crate) camera: u8,
    pub(crate) flip: u8,
}

/// `rtpw_timing` in C.
#[repr(C)]
#[derive(Clone, Copy, Debug, Default, PartialEq, Eq, Hash)]
pub struct TimingView {
    pub(crate) encode_start: u16,
    pub(crate) encode_finish: u16,
    pub(crate) packetize_complete: u16,
    pub(crate) last_left_pacer: u16,
    pub(crate) network: u16,
    pub(crate) network2: u16,
    pub(crate) flags: u8,
    pub(crate) has_flags: u8,
}

/// `rtpw_transport_number` in C.
#[repr(C)]
#[derive(Clone, Copy, Debug, Default, PartialEq, Eq, Hash)]
pub struct TransportNumberView {
    pub(crate) number: u16,
    pub(crate) packets: u16,
    pub(crate) has_request: u8,
    pub(crate) timestamps: u8,
}

/// `rtpw_color_space` in C.
#[repr(C)]
#[derive(Clone, Copy, Debug, Default, PartialEq, Eq, Hash)]
pub struct ColorSpaceView {
    pub(crate) hdr: HdrMetadata,
    pub(crate) primaries: u8,
    pub(crate) transfer: u8,
    pub(crate) matrix: u8,
    pub(crate) range: u8,
    pub(crate) horizontal: u8,
    pub(crate) vertical: u8,
    pub(crate) has_hdr: u8,
}

/// `rtpw_dependency_descriptor` in C.
#[repr(C)]
#[derive(Clone, Copy, Debug, Default, PartialEq, Eq, Hash)]
pub struct DependencyDescriptorView {
    pub(crate) frame_number: u16,
    pub(crate) start_of_frame: u8,
    pub(crate) end_of_frame: u8,
    pub(crate) template_id: u8,
}

/// `rtpw_new_ids` in C.
#[repr(C)]
#[derive(Clone, Copy, Debug, PartialEq, Eq, Hash)]
pub struct StoredNewIds {
    pub(crate) id: [u8; 256],
}

/// `rtpw_receiver` in C.
#[repr(C)]
#[derive(Clone, Copy, Debug, Default, PartialEq, Eq, Hash)]
pub struct ReceiverState {
    pub(crate) highest: u64,
    pub(crate) recorded_low: u64,
    pub(crate) recorded_high: u64,
    pub(crate) started: u8,
}

/// `rtpw_wide_receiver` in C.
#[repr(C)]
#[derive(Clone, Copy, Debug, Default, PartialEq, Eq, Hash)]
pub struct WideState {
    pub(crate) highest: u64,
    pub(crate) started: u8,
}

/// `rtpw_restarting_receiver` in C.
#[repr(C)]
#[derive(Clone, Copy, Debug, Default, PartialEq, Eq, Hash)]
pub struct NarrowRestartingState {
    pub(crate) highest: u64,
    pub(crate) words: [u64; 2],
    pub(crate) max_dropout: u16,
    pub(crate) next: u16,
    pub(crate) min_sequential: u8,
    pub(crate) in_row: u8,
    pub(crate) started: u8,
}

/// `rtpw_reception` in C.
#[repr(C)]
#[derive(Clone, Copy, Debug, Default, PartialEq, Eq, Hash)]
pub struct ReceptionState {
    pub(crate) first: u64,
    pub(crate) highest: u64,
    pub(crate) received: u64,
    pub(crate) received_before: u64,
    pub(crate) expected_before: u64,
    pub(crate) scaled_jitter: u64,
    pub(crate) transit: u32,
}

/// `rtpw_wide_restarting_receiver` in C.
#[repr(C)]
#[derive(Clone, Copy, Debug, Default, PartialEq, Eq, Hash)]
pub struct RestartingState {
    pub(crate) highest: u64,
    pub(crate) max_dropout: u16,
    pub(crate) max_misorder: u16,
    pub(crate) next: u16,
    pub(crate) min_sequential: u8,
    pub(crate) in_row: u8,
    pub(crate) started: u8,
}

/// `rtpw_whole_datagram` in C.
#[repr(C)]
#[derive(Clone, Copy, Debug, Default)]
pub struct WholeSlot {
    pub(crate) at: usize,
    pub(crate) len: usize,
    pub(crate) packet: WholePacket,
    pub(crate) status: i32,
}

/// `rtpw_datagram` in C.
#[repr(C)]
#[derive(Clone, Copy, Debug, Default)]
pub struct PacketSlot {
    pub(crate) at: usize,
    pub(crate) len: usize,
    pub(crate) packet: PacketParts,
    pub(crate) status: i32,
    pub(crate) is_rtcp: u8,
}

/// `rtpw_datagram_header` in C.
#[repr(C)]
#[derive(Clone, Copy, Debug, Default)]
pub struct HeaderSlot {
    pub(crate) at: usize,
    pub(crate) len: usize,
    pub(crate) header: HeaderView,
    pub(crate) status: i32,
    pub(crate) is_rtcp: u8,
}

/// `rtpw_arrival` in C.
#[repr(C)]
#[derive(Clone, Copy, Debug)]
pub struct ArrivalSlot {
    pub(crate) receiver: usize,
    pub(crate) number: u64,
    pub(crate) sequence_number: u16,
    pub(crate) status: i32,
}

/// `rtpw_template` in C.
#[repr(C)]
#[derive(Clone, Copy, Debug, Default, PartialEq, Eq, Hash)]
pub struct TemplateParts {
    pub(crate) header_len: u32,
    pub(crate) data_at: [u32; 16],
    pub(crate) data_total: u16,
    pub(crate) count: u8,
    pub(crate) data_len: [u8; 16],
}

/// `rtpw_group` in C.
#[repr(C)]
#[derive(Clone, Copy, Debug, PartialEq, Eq, Hash)]
pub struct StoredGroup {
    pub(crate) new_ids: [u8; 256],
    pub(crate) numbers: [u8; 256],
    pub(crate) element_ids: [u8; 16],
    pub(crate) data_lens: [u8; 16],
    pub(crate) data_total: u16,
    pub(crate) count: u8,
    pub(crate) allowed: u8,
    pub(crate) one_byte: u8,
}

/// `rtpw_routed_header` in C.
#[repr(C)]
#[derive(Clone, Copy, Debug)]
pub struct RoutedSlot {
    pub(crate) data_at: usize,
    pub(crate) at: usize,
    pub(crate) fields: FieldsView,
    pub(crate) original_number: u16,
    pub(crate) is_retransmission: u8,
    pub(crate) clears_padding: u8,
    pub(crate) status: i32,
    pub(crate) len: u32,
}

// A program isn't built where a struct has another size than in C, or a field lies elsewhere.
macro_rules! lies {
    ($it:ty, $size:expr, aligned $align:expr, $($field:ident $at:expr),*) => {
        const _: () = assert!(size_of::<$it>() == $size && align_of::<$it>() == $align);
        $(const _: () = assert!(offset_of!($it, $field) == $at, stringify!($field));)*
    };
}

lies!(PacketParts, 64, aligned 8, payload_at 0, payload_len 8, unpadded_len 16, body_at 24, body_len 32,
    timestamp 40, ssrc 44, sequence_number 48, payload_type 50, csrc_count 51, marker 52, has_padding 53,
    padding_fits 54, block_form 55, block_profile 56);
lies!(FieldsView, 20, aligned 4, timestamp 0, ssrc 4, sequence_number 8, payload_type 10, marker 11,
    has_timestamp 12, has_ssrc 13, has_sequence_number 14, has_payload_type 15, has_marker 16);
lies!(Place, 32, aligned 8, data_at 0, data_len 8, end 16, id 24);
lies!(StoredMap, 256, aligned 1, kind 0);
lies!(Time, 16, aligned 8, ticks 0, hertz 8);
lies!(ValuesView, 136, aligned 8, send_time 0, capture_time 8, capture_offset 16, playout_delay_min 24,
    playout_delay_max 40, transmission_offset 56, frame_marking 60, transport_number 64, video_orientation 66,
    encode_start 68, encode_finish 70, packetize_complete 72, last_left_pacer 74, timing_flags 76,
    video_content_type 77, audio_level 78, voice_activity 79, mid 80, rid 97, repaired_rid 106, has_send_time 115,
    has_capture_time 116, has_capture_offset 117, has_transmission_offset 118, has_frame_marking 119,
    has_transport_number 120, has_video_orientation 121, has_video_content_type 122, has_audio_level 123,
    has_voice_activity 124, has_playout_delay_min 125, has_playout_delay_max 126, has_video_timing 127, has_mid 128,
    has_rid 129, has_repaired_rid 130, has_layers 131);
lies!(HeaderView, 224, aligned 8, header_len 0, timestamp 8, ssrc 12, csrc 16, sequence_number 76, payload_type 78,
    csrc_count 79, marker 80, has_padding 81, has_extension 82, values 88);
lies!(WholePacket, 256, aligned 8, header 0, unpadded_len 224, body_at 232, body_len 240, block_profile 248,
    block_form 250, padding_fits 251);
lies!(Layer, 40, aligned 8, kbps 0, width 32, height 34, framerate 36, has_resolution 37, rates 38);
lies!(Stream, 168, aligned 8, layers 0, count 160);
lies!(Layers, 680, aligned 8, streams 0, count 672, current 673);
lies!(FrameMarkingView, 10, aligned 1, start 0, end 1, independent 2, discardable 3, has_layers 4,
    base_layer_sync 5, temporal_id 6, layer_id 7, has_tl0_pic_idx 8, tl0_pic_idx 9);
lies!(OrientationView, 4, aligned 2, turn 0, camera 2, flip 3);
lies!(TimingView, 14, aligned 2, encode_start 0, encode_finish 2, packetize_complete 4, last_left_pacer 6,
    network 8, network2 10, flags 12, has_flags 13);
lies!(TransportNumberView, 6, aligned 2, number 0, packets 2, has_request 4, timestamps 5);
lies!(Chromaticity, 4, aligned 2, x 0, y 2);
lies!(HdrMetadata, 24, aligned 2, luminance_max 0, luminance_min 2, red 4, green 8, blue 12, white 16,
    max_content_light_level 20, max_frame_average_light_level 22);
lies!(ColorSpaceView, 32, aligned 2, hdr 0, primaries 24, transfer 25, matrix 26, range 27, horizontal 28,
    vertical 29, has_hdr 30);
lies!(DependencyDescriptorView, 6, aligned 2, frame_number 0, start_of_frame 2, end_of_frame 3, template_id 4);
lies!(StoredNewIds, 256, aligned 1, id 0);
lies!(ReceiverState, 32, aligned 8, highest 0, recorded_low 8, recorded_high 16, started 24);
lies!(WideState, 16, aligned 8, highest 0, started 8);
lies!(NarrowRestartingState, 32, aligned 8, highest 0, words 8, max_dropout 24, next 26, min_sequential 28,
    in_row 29, started 30);
lies!(ReceptionState, 56, aligned 8, first 0, highest 8, received 16, received_before 24, expected_before 32,
    scaled_jitter 40, transit 48);
lies!(ReceptionReport, 16, aligned 4, fraction_lost 0, cumulative_lost 4, extended_highest 8, jitter 12);
lies!(RestartingState, 24, aligned 8, highest 0, max_dropout 8, max_misorder 10, next 12, min_sequential 14,
    in_row 15, started 16);
lies!(WholeSlot, 280, aligned 8, at 0, len 8, packet 16, status 272);
lies!(PacketSlot, 88, aligned 8, at 0, len 8, packet 16, status 80, is_rtcp 84);
lies!(HeaderSlot, 248, aligned 8, at 0, len 8, header 16, status 240, is_rtcp 244);
lies!(ArrivalSlot, 24, aligned 8, receiver 0, number 8, sequence_number 16, status 20);
lies!(TemplateParts, 88, aligned 4, header_len 0, data_at 4, data_total 68, count 70, data_len 71);
lies!(StoredGroup, 550, aligned 2, new_ids 0, numbers 256, element_ids 512, data_lens 528, data_total 544,
    count 546, allowed 547, one_byte 548);
lies!(RoutedSlot, 48, aligned 8, data_at 0, at 8, fields 16, original_number 36, is_retransmission 38,
    clears_padding 39, status 40, len 44);
