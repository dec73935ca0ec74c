// Made by bindings/described/make of bindings/c/rtp_wire.h.

//! The functions of `rtp_wire.h`, called with the types of Rust. This is the one module with `unsafe`; what it
//! calls is the text in `assembly`.
//!
//! Each of them may be called with any values: it asks only that a pointer is aligned and is to as many
//! bytes as is said, and that what it writes overlaps nothing else that it is given. A reference of Rust
//! is never NULL, and an exclusive one overlaps no other. No function keeps a pointer. That is the reason of
//! each call below.
#![allow(unsafe_code, dead_code, clippy::wildcard_imports)]

use crate::views::*;

pub const OK: i32 = 0;
pub const CUT_FIXED_PART: i32 = 1;
pub const OTHER_VERSION: i32 = 2;
pub const CUT_SOURCES: i32 = 3;
pub const CUT_BLOCK_HEADER: i32 = 4;
pub const UNKNOWN_FORM: i32 = 5;
pub const CUT_BLOCK: i32 = 6;
pub const SHORT_BUFFER: i32 = 8;
pub const BAD_FIELD: i32 = 9;
pub const REFUSED: i32 = 10;
pub const NONE: i32 = 11;
pub const RESTARTED: i32 = 12;
pub const BAD_ID: i32 = 13;
pub const FORM_NOT_ALLOWED: i32 = 14;
pub const LONG_BLOCK: i32 = 15;
pub const LONG_ID: i32 = 16;
pub const RTCP: i32 = 17;
pub const NO_BLOCK: u8 = 0;
pub const ONE_BYTE_FORM: u8 = 1;
pub const TWO_BYTE_FORM: u8 = 2;
pub const OTHER_FORM: u8 = 3;
pub const ANY_FORM: u8 = 0;
pub const KIND_NONE: u8 = 0;
pub const KIND_ABS_SEND_TIME: u8 = 1;
pub const KIND_ABS_CAPTURE_TIME: u8 = 2;
pub const KIND_AUDIO_LEVEL: u8 = 3;
pub const KIND_TRANSMISSION_OFFSET: u8 = 4;
pub const KIND_VIDEO_ORIENTATION: u8 = 5;
pub const KIND_TRANSPORT_NUMBER: u8 = 6;
pub const KIND_PLAYOUT_DELAY: u8 = 7;
pub const KIND_VIDEO_CONTENT_TYPE: u8 = 8;
pub const KIND_VIDEO_TIMING: u8 = 9;
pub const KIND_RID: u8 = 10;
pub const KIND_REPAIRED_RID: u8 = 11;
pub const KIND_MID: u8 = 12;
pub const KIND_FRAME_MARKING: u8 = 13;
pub const KIND_COLOR_SPACE: u8 = 14;
pub const KIND_LAYERS: u8 = 15;
pub const KIND_MIXER_LEVELS: u8 = 16;
pub const KIND_TRANSPORT_NUMBER_2: u8 = 17;
pub const KIND_DEPENDENCY_DESCRIPTOR: u8 = 18;
pub const KIND_NTP_64: u8 = 19;
pub const KIND_NTP_56: u8 = 20;
pub const KIND_OWN: u8 = 128;
pub const CAMERA_FRONT: u8 = 0;
pub const CAMERA_BACK: u8 = 1;
pub const RANGE_UNKNOWN: u8 = 0;
pub const RANGE_LIMITED: u8 = 1;
pub const RANGE_FULL: u8 = 2;
pub const RANGE_DERIVED: u8 = 3;
pub const SITING_UNSPECIFIED: u8 = 0;
pub const SITING_COLLOCATED: u8 = 1;
pub const SITING_HALF: u8 = 2;
pub const NEW: u8 = 0;
pub const TAKEN: u8 = 1;
pub const TOO_OLD: u8 = 2;
pub const NO_WINDOW: u8 = 3;
pub const CSRC_AT: usize = 12;
pub const URI_SIZE: usize = 87;

/// What each status says.
pub mod text {
    pub const OK: &str = "done";
    pub const CUT_FIXED_PART: &str = "fewer than twelve bytes";
    pub const OTHER_VERSION: &str = "another version than 2";
    pub const CUT_SOURCES: &str = "the CSRC list is cut short";
    pub const CUT_BLOCK_HEADER: &str = "the header of the extension block is cut short";
    pub const UNKNOWN_FORM: &str = "a header extension of an unknown form";
    pub const CUT_BLOCK: &str = "the extension block is cut short";
    pub const SHORT_BUFFER: &str = "a buffer is too short";
    pub const BAD_FIELD: &str = "an argument is out of its range";
    pub const REFUSED: &str = "a replay, or too old to tell";
    pub const NONE: &str = "no such element";
    pub const RESTARTED: &str = "taken, and the sender has started again";
    pub const BAD_ID: &str = "the id 0, which no element has";
    pub const FORM_NOT_ALLOWED: &str = "a form of the extension block that isn't allowed";
    pub const LONG_BLOCK: &str = "an extension block of more than 65,535 words";
    pub const LONG_ID: &str = "an id above 14, which the one-byte form can't carry";
    pub const RTCP: &str = "a packet of RTCP";
}

/// What may be written of a field.
pub mod range {
    use core::ops::RangeInclusive;

    pub const FIELDS_PAYLOAD_TYPE: RangeInclusive<i32> = 0..=127;
    pub const VALUES_AUDIO_LEVEL: RangeInclusive<i32> = -127..=0;
    pub const HEADER_PAYLOAD_TYPE: RangeInclusive<i32> = 0..=127;
    pub const HEADER_CSRC_COUNT: RangeInclusive<i32> = 0..=15;
    pub const FRAME_MARKING_TEMPORAL_ID: RangeInclusive<i32> = 0..=7;
    pub const ORIENTATION_CAMERA: RangeInclusive<i32> = 0..=1;
    pub const TRANSPORT_NUMBER_PACKETS: RangeInclusive<i32> = 0..=32767;
    pub const COLOR_SPACE_RANGE: RangeInclusive<i32> = 0..=3;
    pub const COLOR_SPACE_HORIZONTAL: RangeInclusive<i32> = 0..=2;
    pub const COLOR_SPACE_VERTICAL: RangeInclusive<i32> = 0..=2;
    pub const DEPENDENCY_DESCRIPTOR_TEMPLATE_ID: RangeInclusive<i32> = 0..=63;
}

/// Declares functions of the library under their names in its text.
macro_rules! of_the_text {
    ($(pub fn $name:ident($($argument:ident: $kind:ty),* $(,)?) $(-> $result:ty)?;)*) => {
        extern "C" {
            $(
                #[link_name = in_the_text!($name)]
                pub fn $name($($argument: $kind),*) $(-> $result)?;
            )*
        }
    };
}

mod c {
    use super::*;

    of_the_text! {
        pub fn rtpw_version() -> u32;
        pub fn rtpw_is_rtcp(datagram: *const u8, len: usize) -> bool;
        pub fn rtpw_packet_parse(datagram: *const u8, len: usize, packet: *mut PacketParts) -> i32;
        pub fn rtpw_set_marker(datagram: *mut u8, len: usize, marker: bool) -> i32;
        pub fn rtpw_set_payload_type(datagram: *mut u8, len: usize, payload_type: u8) -> i32;
        pub fn rtpw_set_sequence_number(datagram: *mut u8, len: usize, number: u16) -> i32;
        pub fn rtpw_set_timestamp(datagram: *mut u8, len: usize, timestamp: u32) -> i32;
        pub fn rtpw_set_ssrc(datagram: *mut u8, len: usize, ssrc: u32) -> i32;
        pub fn rtpw_set_fields(datagram: *mut u8, len: usize, fields: *const FieldsView) -> i32;
        pub fn rtpw_set_csrc(datagram: *mut u8, len: usize, index: usize, source: u32) -> i32;
        pub fn rtpw_set_element(datagram: *mut u8, len: usize, id: u8, data: *const u8, data_len: usize) -> i32;
        pub fn rtpw_remove_element(datagram: *mut u8, len: usize, id: u8) -> i32;
        pub fn rtpw_set_padding(datagram: *mut u8, len: usize, has_padding: bool) -> i32;
        pub fn rtpw_remove_padding(datagram: *mut u8, len: usize, new_len: *mut usize) -> i32;
        pub fn rtpw_put_element(buf: *mut u8, size: usize, len: *mut usize, id: u8, data: *const u8, data_len: usize, allowed: u8) -> i32;
        pub fn rtpw_add_element(buf: *mut u8, size: usize, len: *mut usize, id: u8, data: *const u8, data_len: usize, allowed: u8) -> i32;
        pub fn rtpw_compact(buf: *mut u8, size: usize, len: *mut usize) -> i32;
        pub fn rtpw_change_form(buf: *mut u8, size: usize, len: *mut usize, form: u8) -> i32;
        pub fn rtpw_remove_block(buf: *mut u8, size: usize, len: *mut usize) -> i32;
        pub fn rtpw_put_block(buf: *mut u8, size: usize, len: *mut usize, profile: u16, body: *const u8, body_len: usize) -> i32;
        pub fn rtpw_next_element(body: *const u8, body_len: usize, form: u8, at: usize, element: *mut Place) -> i32;
        pub fn rtpw_next_elements(body: *const u8, body_len: usize, form: u8, at: usize, elements: *mut Place, count: usize) -> usize;
        pub fn rtpw_last_element(body: *const u8, body_len: usize, form: u8, id: u8, element: *mut Place) -> i32;
        pub fn rtpw_kind_of_uri(uri: *const u8, len: usize) -> u8;
        pub fn rtpw_uri_of_kind(kind: u8, buf: *mut u8, size: usize, len: *mut usize) -> i32;
        pub fn rtpw_map_set(map: *mut StoredMap, id: u8, kind: u8) -> i32;
        pub fn rtpw_map_remove(map: *mut StoredMap, id: u8);
        pub fn rtpw_map_get(map: *const StoredMap, id: u8) -> u8;
        pub fn rtpw_id_of(map: *const StoredMap, kind: u8) -> u8;
        pub fn rtpw_map_standard(map: *mut StoredMap);
        pub fn rtpw_values_read(body: *const u8, body_len: usize, form: u8, map: *const StoredMap, values: *mut ValuesView) -> i32;
        pub fn rtpw_data_of(kind: u8, values: *const ValuesView, buf: *mut u8, size: usize, len: *mut usize) -> i32;
        pub fn rtpw_read(datagram: *const u8, len: usize, map: *const StoredMap, packet: *mut WholePacket) -> i32;
        pub fn rtpw_parse(datagram: *const u8, len: usize, map: *const StoredMap, header: *mut HeaderView) -> i32;
        pub fn rtpw_parse_layers(datagram: *const u8, len: usize, map: *const StoredMap, header: *mut HeaderView, layers: *mut Layers) -> i32;
        pub fn rtpw_wire_len(map: *const StoredMap, header: *const HeaderView, len: *mut usize) -> i32;
        pub fn rtpw_write(map: *const StoredMap, header: *const HeaderView, buf: *mut u8, size: usize, len: *mut usize) -> i32;
        pub fn rtpw_wire_len_layers(map: *const StoredMap, header: *const HeaderView, layers: *const Layers, len: *mut usize) -> i32;
        pub fn rtpw_write_layers(map: *const StoredMap, header: *const HeaderView, layers: *const Layers, buf: *mut u8, size: usize, len: *mut usize) -> i32;
        pub fn rtpw_left_out(map: *const StoredMap, header: *const HeaderView, kinds: *mut u32) -> i32;
        pub fn rtpw_left_out_layers(map: *const StoredMap, header: *const HeaderView, layers: *const Layers, kinds: *mut u32) -> i32;
        pub fn rtpw_write_with(header: *const HeaderView, data: *const u8, data_len: usize, elements: *const Place, count: usize, buf: *mut u8, size: usize, len: *mut usize) -> i32;
        pub fn rtpw_write_with_form(header: *const HeaderView, data: *const u8, data_len: usize, elements: *const Place, count: usize, form: u8, buf: *mut u8, size: usize, len: *mut usize) -> i32;
        pub fn rtpw_write_elements(data: *const u8, data_len: usize, elements: *const Place, count: usize, form: u8, buf: *mut u8, size: usize, len: *mut usize) -> i32;
        pub fn rtpw_read_send_time(data: *const u8, data_len: usize, units: *mut u32) -> i32;
        pub fn rtpw_write_send_time(units: u32, buf: *mut u8, size: usize, len: *mut usize) -> i32;
        pub fn rtpw_extend_send_time(around: u64, units: u32) -> u64;
        pub fn rtpw_read_transmission_offset(data: *const u8, data_len: usize, offset: *mut i32) -> i32;
        pub fn rtpw_write_transmission_offset(offset: i32, buf: *mut u8, size: usize, len: *mut usize) -> i32;
        pub fn rtpw_read_frame_marking(data: *const u8, data_len: usize, marking: *mut FrameMarkingView) -> i32;
        pub fn rtpw_write_frame_marking(marking: *const FrameMarkingView, buf: *mut u8, size: usize, len: *mut usize) -> i32;
        pub fn rtpw_read_orientation(data: *const u8, data_len: usize, orientation: *mut OrientationView) -> i32;
        pub fn rtpw_write_orientation(orientation: *const OrientationView, buf: *mut u8, size: usize, len: *mut usize) -> i32;
        pub fn rtpw_is_token(data: *const u8, data_len: usize) -> bool;
        pub fn rtpw_is_stream_id(data: *const u8, data_len: usize) -> bool;
        pub fn rtpw_read_timing(data: *const u8, data_len: usize, timing: *mut TimingView) -> i32;
        pub fn rtpw_write_timing(timing: *const TimingView, buf: *mut u8, size: usize, len: *mut usize) -> i32;
        pub fn rtpw_read_transport_number(data: *const u8, data_len: usize, number: *mut TransportNumberView) -> i32;
        pub fn rtpw_write_transport_number(number: *const TransportNumberView, buf: *mut u8, size: usize, len: *mut usize) -> i32;
        pub fn rtpw_read_mixer_level(data: *const u8, data_len: usize, csrc_count: usize, index: usize, level: *mut i8) -> i32;
        pub fn rtpw_write_mixer_levels(levels: *const i8, count: usize, buf: *mut u8, size: usize, len: *mut usize) -> i32;
        pub fn rtpw_read_ntp_64(data: *const u8, data_len: usize, time: *mut u64) -> i32;
        pub fn rtpw_write_ntp_64(time: u64, buf: *mut u8, size: usize, len: *mut usize) -> i32;
        pub fn rtpw_read_ntp_56(data: *const u8, data_len: usize, time: *mut u64) -> i32;
        pub fn rtpw_write_ntp_56(time: u64, buf: *mut u8, size: usize, len: *mut usize) -> i32;
        pub fn rtpw_extend_ntp_56(around: u64, low: u64) -> u64;
        pub fn rtpw_read_color_space(data: *const u8, data_len: usize, space: *mut ColorSpaceView) -> i32;
        pub fn rtpw_write_color_space(space: *const ColorSpaceView, buf: *mut u8, size: usize, len: *mut usize) -> i32;
        pub fn rtpw_read_dependency_descriptor(data: *const u8, data_len: usize, descriptor: *mut DependencyDescriptorView) -> i32;
        pub fn rtpw_write_dependency_descriptor(descriptor: *const DependencyDescriptorView, buf: *mut u8, size: usize, len: *mut usize) -> i32;
        pub fn rtpw_has_structure(data: *const u8, data_len: usize) -> bool;
        pub fn rtpw_new_ids_between(from: *const StoredMap, to: *const StoredMap, ids: *mut StoredNewIds);
        pub fn rtpw_renumber(datagram: *mut u8, len: usize, ids: *const StoredNewIds) -> i32;
        pub fn rtpw_pad(datagram: *mut u8, size: usize, header_len: usize, pad_len: u8, block_size: usize, count: *mut usize) -> i32;
        pub fn rtpw_read_original(payload: *const u8, len: usize, number: *mut u16) -> i32;
        pub fn rtpw_write_original(payload: *mut u8, size: usize, number: u64) -> i32;
        pub fn rtpw_new_ids_to_retransmission(map: *const StoredMap, ids: *mut StoredNewIds);
        pub fn rtpw_new_ids_from_retransmission(map: *const StoredMap, ids: *mut StoredNewIds);
        pub fn rtpw_to_retransmission(buf: *mut u8, size: usize, len: *mut usize, ssrc: u32, payload_type: u8, number: u16, ids: *const StoredNewIds) -> i32;
        pub fn rtpw_from_retransmission(buf: *mut u8, size: usize, len: *mut usize, ssrc: u32, payload_type: u8, ids: *const StoredNewIds) -> i32;
        pub fn rtpw_receiver_start(receiver: *mut ReceiverState, rollover_count: u64) -> i32;
        pub fn rtpw_receiver_number_of(receiver: *const ReceiverState, sequence_number: u16) -> u64;
        pub fn rtpw_receiver_accepts(receiver: *const ReceiverState, number: u64) -> bool;
        pub fn rtpw_receiver_record(receiver: *mut ReceiverState, number: u64);
        pub fn rtpw_receiver_receive(receiver: *mut ReceiverState, sequence_number: u16, number: *mut u64) -> i32;
        pub fn rtpw_receiver_standing_of(receiver: *const ReceiverState, number: u64) -> u8;
        pub fn rtpw_wide_receiver_start(receiver: *mut WideState, rollover_count: u64) -> i32;
        pub fn rtpw_wide_receiver_number_of(receiver: *const WideState, sequence_number: u16) -> u64;
        pub fn rtpw_wide_receiver_accepts(receiver: *const WideState, words: *const u64, count: usize, number: u64) -> bool;
        pub fn rtpw_wide_receiver_record(receiver: *mut WideState, words: *mut u64, count: usize, number: u64) -> i32;
        pub fn rtpw_wide_receiver_receive(receiver: *mut WideState, words: *mut u64, count: usize, sequence_number: u16, number: *mut u64) -> i32;
        pub fn rtpw_wide_receiver_standing_of(receiver: *const WideState, words: *const u64, count: usize, number: u64) -> u8;
        pub fn rtpw_restarting_receive(receiver: *mut NarrowRestartingState, sequence_number: u16, number: *mut u64) -> i32;
        pub fn rtpw_reception_record(reception: *mut ReceptionState, number: u64, timestamp: u32, arrival: u32);
        pub fn rtpw_reception_report(reception: *mut ReceptionState, report: *mut ReceptionReport) -> i32;
        pub fn rtpw_write_report(report: *const ReceptionReport, ssrc: u32, last_report: u32, delay: u32, buf: *mut u8, size: usize, len: *mut usize) -> i32;
        pub fn rtpw_wide_restarting_receive(receiver: *mut RestartingState, words: *mut u64, count: usize, sequence_number: u16, number: *mut u64) -> i32;
        pub fn rtpw_extend_u8(previous: u64, number: u8) -> u64;
        pub fn rtpw_extend_u15(previous: u64, number: u16) -> u64;
        pub fn rtpw_extend_u16(previous: u64, number: u16) -> u64;
        pub fn rtpw_extend_u32(previous: u64, number: u32) -> u64;
        pub fn rtpw_read_many(buf: *const u8, size: usize, map: *const StoredMap, datagrams: *mut WholeSlot, count: usize);
        pub fn rtpw_packet_parse_many(buf: *const u8, size: usize, datagrams: *mut PacketSlot, count: usize);
        pub fn rtpw_parse_many(buf: *const u8, size: usize, map: *const StoredMap, datagrams: *mut HeaderSlot, count: usize);
        pub fn rtpw_receive_many(receivers: *mut ReceiverState, receiver_count: usize, arrivals: *mut ArrivalSlot, count: usize);
        pub fn rtpw_make_template(datagram: *const u8, len: usize, ids: *const StoredNewIds, data: *const u8, data_len: usize, elements: *const Place, count: usize, allowed: u8, buf: *mut u8, size: usize, made: *mut TemplateParts) -> i32;
        pub fn rtpw_prepare_group(ids: *const StoredNewIds, elements: *const Place, count: usize, allowed: u8, group: *mut StoredGroup) -> i32;
        pub fn rtpw_make_from_group(group: *const StoredGroup, datagram: *const u8, len: usize, buf: *mut u8, size: usize, made: *mut TemplateParts) -> i32;
        pub fn rtpw_write_headers(made: *const TemplateParts, header: *const u8, header_size: usize, data: *const u8, data_len: usize, receivers: *mut RoutedSlot, count: usize, buf: *mut u8, size: usize) -> i32;
    }
}

pub fn version() -> u32 {
    // SAFETY: as above.
    unsafe { c::rtpw_version() }
}

pub fn is_rtcp(datagram: &[u8]) -> bool {
    // SAFETY: as above.
    unsafe { c::rtpw_is_rtcp(datagram.as_ptr(), datagram.len()) }
}

pub fn packet_parse(datagram: &[u8], packet: &mut PacketParts) -> i32 {
    // SAFETY: as above, where these are exclusive: packet.
    unsafe { c::rtpw_packet_parse(datagram.as_ptr(), datagram.len(), packet) }
}

pub fn set_marker(datagram: &mut [u8], marker: bool) -> i32 {
    // SAFETY: as above, where these are exclusive: datagram.
    unsafe { c::rtpw_set_marker(datagram.as_mut_ptr(), datagram.len(), marker) }
}

pub fn set_payload_type(datagram: &mut [u8], payload_type: u8) -> i32 {
    // SAFETY: as above, where these are exclusive: datagram.
    unsafe { c::rtpw_set_payload_type(datagram.as_mut_ptr(), datagram.len(), payload_type) }
}

pub fn set_sequence_number(datagram: &mut [u8], number: u16) -> i32 {
    // SAFETY: as above, where these are exclusive: datagram.
    unsafe { c::rtpw_set_sequence_number(datagram.as_mut_ptr(), datagram.len(), number) }
}

pub fn set_timestamp(datagram: &mut [u8], timestamp: u32) -> i32 {
    // SAFETY: as above, where these are exclusive: datagram.
    unsafe { c::rtpw_set_timestamp(datagram.as_mut_ptr(), datagram.len(), timestamp) }
}

pub fn set_ssrc(datagram: &mut [u8], ssrc: u32) -> i32 {
    // SAFETY: as above, where these are exclusive: datagram.
    unsafe { c::rtpw_set_ssrc(datagram.as_mut_ptr(), datagram.len(), ssrc) }
}

pub fn set_fields(datagram: &mut [u8], fields: &FieldsView) -> i32 {
    // SAFETY: as above, where these are exclusive: datagram.
    unsafe { c::rtpw_set_fields(datagram.as_mut_ptr(), datagram.len(), fields) }
}

pub fn set_csrc(datagram: &mut [u8], index: usize, source: u32) -> i32 {
    // SAFETY: as above, where these are exclusive: datagram.
    unsafe { c::rtpw_set_csrc(datagram.as_mut_ptr(), datagram.len(), index, source) }
}

pub fn set_element(datagram: &mut [u8], id: u8, data: &[u8]) -> i32 {
    // SAFETY: as above, where these are exclusive: datagram.
    unsafe { c::rtpw_set_element(datagram.as_mut_ptr(), datagram.len(), id, data.as_ptr(), data.len()) }
}

pub fn remove_element(datagram: &mut [u8], id: u8) -> i32 {
    // SAFETY: as above, where these are exclusive: datagram.
    unsafe { c::rtpw_remove_element(datagram.as_mut_ptr(), datagram.len(), id) }
}

pub fn set_padding(datagram: &mut [u8], has_padding: bool) -> i32 {
    // SAFETY: as above, where these are exclusive: datagram.
    unsafe { c::rtpw_set_padding(datagram.as_mut_ptr(), datagram.len(), has_padding) }
}

pub fn remove_padding(datagram: &mut [u8], new_len: &mut usize) -> i32 {
    // SAFETY: as above, where these are exclusive: datagram, new_len.
    unsafe { c::rtpw_remove_padding(datagram.as_mut_ptr(), datagram.len(), new_len) }
}

pub fn put_element(buf: &mut [u8], len: &mut usize, id: u8, data: &[u8], allowed: u8) -> i32 {
    // SAFETY: as above, where these are exclusive: buf, len.
    unsafe { c::rtpw_put_element(buf.as_mut_ptr(), buf.len(), len, id, data.as_ptr(), data.len(), allowed) }
}

pub fn add_element(buf: &mut [u8], len: &mut usize, id: u8, data: &[u8], allowed: u8) -> i32 {
    // SAFETY: as above, where these are exclusive: buf, len.
    unsafe { c::rtpw_add_element(buf.as_mut_ptr(), buf.len(), len, id, data.as_ptr(), data.len(), allowed) }
}

pub fn compact(buf: &mut [u8], len: &mut usize) -> i32 {
    // SAFETY: as above, where these are exclusive: buf, len.
    unsafe { c::rtpw_compact(buf.as_mut_ptr(), buf.len(), len) }
}

pub fn change_form(buf: &mut [u8], len: &mut usize, form: u8) -> i32 {
    // SAFETY: as above, where these are exclusive: buf, len.
    unsafe { c::rtpw_change_form(buf.as_mut_ptr(), buf.len(), len, form) }
}

pub fn remove_block(buf: &mut [u8], len: &mut usize) -> i32 {
    // SAFETY: as above, where these are exclusive: buf, len.
    unsafe { c::rtpw_remove_block(buf.as_mut_ptr(), buf.len(), len) }
}

pub fn put_block(buf: &mut [u8], len: &mut usize, profile: u16, body: &[u8]) -> i32 {
    // SAFETY: as above, where these are exclusive: buf, len.
    unsafe { c::rtpw_put_block(buf.as_mut_ptr(), buf.len(), len, profile, body.as_ptr(), body.len()) }
}

pub fn next_element(body: &[u8], form: u8, at: usize) -> Option<Place> {
    let mut element = Place::default();
    // SAFETY: as above, where these are exclusive: element.
    let status = unsafe { c::rtpw_next_element(body.as_ptr(), body.len(), form, at, &mut element) };
    (status == OK).then_some(element)
}

pub fn next_elements(body: &[u8], form: u8, at: usize, elements: &mut [Place]) -> usize {
    // SAFETY: as above, where these are exclusive: elements.
    unsafe { c::rtpw_next_elements(body.as_ptr(), body.len(), form, at, elements.as_mut_ptr(), elements.len()) }
}

pub fn last_element(body: &[u8], form: u8, id: u8) -> Option<Place> {
    let mut element = Place::default();
    // SAFETY: as above, where these are exclusive: element.
    let status = unsafe { c::rtpw_last_element(body.as_ptr(), body.len(), form, id, &mut element) };
    (status == OK).then_some(element)
}

pub fn kind_of_uri(uri: &[u8]) -> u8 {
    // SAFETY: as above.
    unsafe { c::rtpw_kind_of_uri(uri.as_ptr(), uri.len()) }
}

pub fn uri_of_kind(kind: u8, buf: &mut [u8], len: &mut usize) -> i32 {
    // SAFETY: as above, where these are exclusive: buf, len.
    unsafe { c::rtpw_uri_of_kind(kind, buf.as_mut_ptr(), buf.len(), len) }
}

pub fn map_set(map: &mut StoredMap, id: u8, kind: u8) -> i32 {
    // SAFETY: as above, where these are exclusive: map.
    unsafe { c::rtpw_map_set(map, id, kind) }
}

pub fn map_remove(map: &mut StoredMap, id: u8) {
    // SAFETY: as above, where these are exclusive: map.
    unsafe { c::rtpw_map_remove(map, id) }
}

pub fn map_get(map: &StoredMap, id: u8) -> u8 {
    // SAFETY: as above.
    unsafe { c::rtpw_map_get(map, id) }
}

pub fn id_of(map: &StoredMap, kind: u8) -> u8 {
    // SAFETY: as above.
    unsafe { c::rtpw_id_of(map, kind) }
}

pub fn map_standard(map: &mut StoredMap) {
    // SAFETY: as above, where these are exclusive: map.
    unsafe { c::rtpw_map_standard(map) }
}

pub fn values_read(body: &[u8], form: u8, map: &StoredMap, values: &mut ValuesView) -> i32 {
    // SAFETY: as above, where these are exclusive: values.
    unsafe { c::rtpw_values_read(body.as_ptr(), body.len(), form, map, values) }
}

pub fn data_of(kind: u8, values: &ValuesView, buf: &mut [u8], len: &mut usize) -> i32 {
    // SAFETY: as above, where these are exclusive: buf, len.
    unsafe { c::rtpw_data_of(kind, values, buf.as_mut_ptr(), buf.len(), len) }
}

pub fn read(datagram: &[u8], map: &StoredMap, packet: &mut WholePacket) -> i32 {
    // SAFETY: as above, where these are exclusive: packet.
    unsafe { c::rtpw_read(datagram.as_ptr(), datagram.len(), map, packet) }
}

pub fn parse(datagram: &[u8], map: &StoredMap, header: &mut HeaderView) -> i32 {
    // SAFETY: as above, where these are exclusive: header.
    unsafe { c::rtpw_parse(datagram.as_ptr(), datagram.len(), map, header) }
}

pub fn parse_layers(datagram: &[u8], map: &StoredMap, header: &mut HeaderView, layers: &mut Layers) -> i32 {
    // SAFETY: as above, where these are exclusive: header, layers.
    unsafe { c::rtpw_parse_layers(datagram.as_ptr(), datagram.len(), map, header, layers) }
}

pub fn wire_len(map: &StoredMap, header: &HeaderView, len: &mut usize) -> i32 {
    // SAFETY: as above, where these are exclusive: len.
    unsafe { c::rtpw_wire_len(map, header, len) }
}

pub fn write(map: &StoredMap, header: &HeaderView, buf: &mut [u8], len: &mut usize) -> i32 {
    // SAFETY: as above, where these are exclusive: buf, len.
    unsafe { c::rtpw_write(map, header, buf.as_mut_ptr(), buf.len(), len) }
}

pub fn wire_len_layers(map: &StoredMap, header: &HeaderView, layers: &Layers, len: &mut usize) -> i32 {
    // SAFETY: as above, where these are exclusive: len.
    unsafe { c::rtpw_wire_len_layers(map, header, layers, len) }
}

pub fn write_layers(map: &StoredMap, header: &HeaderView, layers: &Layers, buf: &mut [u8], len: &mut usize) -> i32 {
    // SAFETY: as above, where these are exclusive: buf, len.
    unsafe { c::rtpw_write_layers(map, header, layers, buf.as_mut_ptr(), buf.len(), len) }
}

pub fn left_out(map: &StoredMap, header: &HeaderView, kinds: &mut u32) -> i32 {
    // SAFETY: as above, where these are exclusive: kinds.
    unsafe { c::rtpw_left_out(map, header, kinds) }
}

pub fn left_out_layers(map: &StoredMap, header: &HeaderView, layers: &Layers, kinds: &mut u32) -> i32 {
    // SAFETY: as above, where these are exclusive: kinds.
    unsafe { c::rtpw_left_out_layers(map, header, layers, kinds) }
}

pub fn write_with(header: &HeaderView, data: &[u8], elements: &[Place], buf: &mut [u8], len: &mut usize) -> i32 {
    // SAFETY: as above, where these are exclusive: buf, len.
    unsafe { c::rtpw_write_with(header, data.as_ptr(), data.len(), elements.as_ptr(), elements.len(), buf.as_mut_ptr(), buf.len(), len) }
}

pub fn write_with_form(header: &HeaderView, data: &[u8], elements: &[Place], form: u8, buf: &mut [u8], len: &mut usize) -> i32 {
    // SAFETY: as above, where these are exclusive: buf, len.
    unsafe { c::rtpw_write_with_form(header, data.as_ptr(), data.len(), elements.as_ptr(), elements.len(), form, buf.as_mut_ptr(), buf.len(), len) }
}

pub fn write_elements(data: &[u8], elements: &[Place], form: u8, buf: &mut [u8], len: &mut usize) -> i32 {
    // SAFETY: as above, where these are exclusive: buf, len.
    unsafe { c::rtpw_write_elements(data.as_ptr(), data.len(), elements.as_ptr(), elements.len(), form, buf.as_mut_ptr(), buf.len(), len) }
}

pub fn read_send_time(data: &[u8]) -> Option<u32> {
    let mut units = 0;
    // SAFETY: as above, where these are exclusive: units.
    let status = unsafe { c::rtpw_read_send_time(data.as_ptr(), data.len(), &mut units) };
    (status == OK).then_some(units)
}

pub fn write_send_time(units: u32, buf: &mut [u8], len: &mut usize) -> i32 {
    // SAFETY: as above, where these are exclusive: buf, len.
    unsafe { c::rtpw_write_send_time(units, buf.as_mut_ptr(), buf.len(), len) }
}

pub fn extend_send_time(around: u64, units: u32) -> u64 {
    // SAFETY: as above.
    unsafe { c::rtpw_extend_send_time(around, units) }
}

pub fn read_transmission_offset(data: &[u8]) -> Option<i32> {
    let mut offset = 0;
    // SAFETY: as above, where these are exclusive: offset.
    let status = unsafe { c::rtpw_read_transmission_offset(data.as_ptr(), data.len(), &mut offset) };
    (status == OK).then_some(offset)
}

pub fn write_transmission_offset(offset: i32, buf: &mut [u8], len: &mut usize) -> i32 {
    // SAFETY: as above, where these are exclusive: buf, len.
    unsafe { c::rtpw_write_transmission_offset(offset, buf.as_mut_ptr(), buf.len(), len) }
}

pub fn read_frame_marking(data: &[u8]) -> Option<FrameMarkingView> {
    let mut marking = FrameMarkingView::default();
    // SAFETY: as above, where these are exclusive: marking.
    let status = unsafe { c::rtpw_read_frame_marking(data.as_ptr(), data.len(), &mut marking) };
    (status == OK).then_some(marking)
}

pub fn write_frame_marking(marking: &FrameMarkingView, buf: &mut [u8], len: &mut usize) -> i32 {
    // SAFETY: as above, where these are exclusive: buf, len.
    unsafe { c::rtpw_write_frame_marking(marking, buf.as_mut_ptr(), buf.len(), len) }
}

pub fn read_orientation(data: &[u8]) -> Option<OrientationView> {
    let mut orientation = OrientationView::default();
    // SAFETY: as above, where these are exclusive: orientation.
    let status = unsafe { c::rtpw_read_orientation(data.as_ptr(), data.len(), &mut orientation) };
    (status == OK).then_some(orientation)
}

pub fn write_orientation(orientation: &OrientationView, buf: &mut [u8], len: &mut usize) -> i32 {
    // SAFETY: as above, where these are exclusive: buf, len.
    unsafe { c::rtpw_write_orientation(orientation, buf.as_mut_ptr(), buf.len(), len) }
}

pub fn is_token(data: &[u8]) -> bool {
    // SAFETY: as above.
    unsafe { c::rtpw_is_token(data.as_ptr(), data.len()) }
}

pub fn is_stream_id(data: &[u8]) -> bool {
    // SAFETY: as above.
    unsafe { c::rtpw_is_stream_id(data.as_ptr(), data.len()) }
}

pub fn read_timing(data: &[u8]) -> Option<TimingView> {
    let mut timing = TimingView::default();
    // SAFETY: as above, where these are exclusive: timing.
    let status = unsafe { c::rtpw_read_timing(data.as_ptr(), data.len(), &mut timing) };
    (status == OK).then_some(timing)
}

pub fn write_timing(timing: &TimingView, buf: &mut [u8], len: &mut usize) -> i32 {
    // SAFETY: as above, where these are exclusive: buf, len.
    unsafe { c::rtpw_write_timing(timing, buf.as_mut_ptr(), buf.len(), len) }
}

pub fn read_transport_number(data: &[u8]) -> Option<TransportNumberView> {
    let mut number = TransportNumberView::default();
    // SAFETY: as above, where these are exclusive: number.
    let status = unsafe { c::rtpw_read_transport_number(data.as_ptr(), data.len(), &mut number) };
    (status == OK).then_some(number)
}

pub fn write_transport_number(number: &TransportNumberView, buf: &mut [u8], len: &mut usize) -> i32 {
    // SAFETY: as above, where these are exclusive: buf, len.
    unsafe { c::rtpw_write_transport_number(number, buf.as_mut_ptr(), buf.len(), len) }
}

pub fn read_mixer_level(data: &[u8], csrc_count: usize, index: usize) -> Option<i8> {
    let mut level = 0;
    // SAFETY: as above, where these are exclusive: level.
    let status = unsafe { c::rtpw_read_mixer_level(data.as_ptr(), data.len(), csrc_count, index, &mut level) };
    (status == OK).then_some(level)
}

pub fn write_mixer_levels(levels: &[i8], buf: &mut [u8], len: &mut usize) -> i32 {
    // SAFETY: as above, where these are exclusive: buf, len.
    unsafe { c::rtpw_write_mixer_levels(levels.as_ptr(), levels.len(), buf.as_mut_ptr(), buf.len(), len) }
}

pub fn read_ntp_64(data: &[u8]) -> Option<u64> {
    let mut time = 0;
    // SAFETY: as above, where these are exclusive: time.
    let status = unsafe { c::rtpw_read_ntp_64(data.as_ptr(), data.len(), &mut time) };
    (status == OK).then_some(time)
}

pub fn write_ntp_64(time: u64, buf: &mut [u8], len: &mut usize) -> i32 {
    // SAFETY: as above, where these are exclusive: buf, len.
    unsafe { c::rtpw_write_ntp_64(time, buf.as_mut_ptr(), buf.len(), len) }
}

pub fn read_ntp_56(data: &[u8]) -> Option<u64> {
    let mut time = 0;
    // SAFETY: as above, where these are exclusive: time.
    let status = unsafe { c::rtpw_read_ntp_56(data.as_ptr(), data.len(), &mut time) };
    (status == OK).then_some(time)
}

pub fn write_ntp_56(time: u64, buf: &mut [u8], len: &mut usize) -> i32 {
    // SAFETY: as above, where these are exclusive: buf, len.
    unsafe { c::rtpw_write_ntp_56(time, buf.as_mut_ptr(), buf.len(), len) }
}

pub fn extend_ntp_56(around: u64, low: u64) -> u64 {
    // SAFETY: as above.
    unsafe { c::rtpw_extend_ntp_56(around, low) }
}

pub fn read_color_space(data: &[u8]) -> Option<ColorSpaceView> {
    let mut space = ColorSpaceView::default();
    // SAFETY: as above, where these are exclusive: space.
    let status = unsafe { c::rtpw_read_color_space(data.as_ptr(), data.len(), &mut space) };
    (status == OK).then_some(space)
}

pub fn write_color_space(space: &ColorSpaceView, buf: &mut [u8], len: &mut usize) -> i32 {
    // SAFETY: as above, where these are exclusive: buf, len.
    unsafe { c::rtpw_write_color_space(space, buf.as_mut_ptr(), buf.len(), len) }
}

pub fn read_dependency_descriptor(data: &[u8]) -> Option<DependencyDescriptorView> {
    let mut descriptor = DependencyDescriptorView::default();
    // SAFETY: as above, where these are exclusive: descriptor.
    let status = unsafe { c::rtpw_read_dependency_descriptor(data.as_ptr(), data.len(), &mut descriptor) };
    (status == OK).then_some(descriptor)
}

pub fn write_dependency_descriptor(descriptor: &DependencyDescriptorView, buf: &mut [u8], len: &mut usize) -> i32 {
    // SAFETY: as above, where these are exclusive: buf, len.
    unsafe { c::rtpw_write_dependency_descriptor(descriptor, buf.as_mut_ptr(), buf.len(), len) }
}

pub fn has_structure(data: &[u8]) -> bool {
    // SAFETY: as above.
    unsafe { c::rtpw_has_structure(data.as_ptr(), data.len()) }
}

pub fn new_ids_between(from: &StoredMap, to: &StoredMap, ids: &mut StoredNewIds) {
    // SAFETY: as above, where these are exclusive: ids.
    unsafe { c::rtpw_new_ids_between(from, to, ids) }
}

pub fn renumber(datagram: &mut [u8], ids: &StoredNewIds) -> i32 {
    // SAFETY: as above, where these are exclusive: datagram.
    unsafe { c::rtpw_renumber(datagram.as_mut_ptr(), datagram.len(), ids) }
}

pub fn pad(datagram: &mut [u8], header_len: usize, pad_len: u8, block_size: usize, count: &mut usize) -> i32 {
    // SAFETY: as above, where these are exclusive: datagram, count.
    unsafe { c::rtpw_pad(datagram.as_mut_ptr(), datagram.len(), header_len, pad_len, block_size, count) }
}

pub fn read_original(payload: &[u8]) -> Option<u16> {
    let mut number = 0;
    // SAFETY: as above, where these are exclusive: number.
    let status = unsafe { c::rtpw_read_original(payload.as_ptr(), payload.len(), &mut number) };
    (status == OK).then_some(number)
}

pub fn write_original(payload: &mut [u8], number: u64) -> i32 {
    // SAFETY: as above, where these are exclusive: payload.
    unsafe { c::rtpw_write_original(payload.as_mut_ptr(), payload.len(), number) }
}

pub fn new_ids_to_retransmission(map: &StoredMap, ids: &mut StoredNewIds) {
    // SAFETY: as above, where these are exclusive: ids.
    unsafe { c::rtpw_new_ids_to_retransmission(map, ids) }
}

pub fn new_ids_from_retransmission(map: &StoredMap, ids: &mut StoredNewIds) {
    // SAFETY: as above, where these are exclusive: ids.
    unsafe { c::rtpw_new_ids_from_retransmission(map, ids) }
}

pub fn to_retransmission(buf: &mut [u8], len: &mut usize, ssrc: u32, payload_type: u8, number: u16, ids: &StoredNewIds) -> i32 {
    // SAFETY: as above, where these are exclusive: buf, len.
    unsafe { c::rtpw_to_retransmission(buf.as_mut_ptr(), buf.len(), len, ssrc, payload_type, number, ids) }
}

pub fn from_retransmission(buf: &mut [u8], len: &mut usize, ssrc: u32, payload_type: u8, ids: &StoredNewIds) -> i32 {
    // SAFETY: as above, where these are exclusive: buf, len.
    unsafe { c::rtpw_from_retransmission(buf.as_mut_ptr(), buf.len(), len, ssrc, payload_type, ids) }
}

pub fn receiver_start(receiver: &mut ReceiverState, rollover_count: u64) -> i32 {
    // SAFETY: as above, where these are exclusive: receiver.
    unsafe { c::rtpw_receiver_start(receiver, rollover_count) }
}

pub fn receiver_number_of(receiver: &ReceiverState, sequence_number: u16) -> u64 {
    // SAFETY: as above.
    unsafe { c::rtpw_receiver_number_of(receiver, sequence_number) }
}

pub fn receiver_accepts(receiver: &ReceiverState, number: u64) -> bool {
    // SAFETY: as above.
    unsafe { c::rtpw_receiver_accepts(receiver, number) }
}

pub fn receiver_record(receiver: &mut ReceiverState, number: u64) {
    // SAFETY: as above, where these are exclusive: receiver.
    unsafe { c::rtpw_receiver_record(receiver, number) }
}

pub fn receiver_receive(receiver: &mut ReceiverState, sequence_number: u16) -> Option<u64> {
    let mut number = 0;
    // SAFETY: as above, where these are exclusive: receiver, number.
    let status = unsafe { c::rtpw_receiver_receive(receiver, sequence_number, &mut number) };
    (status == OK).then_some(number)
}

pub fn receiver_standing_of(receiver: &ReceiverState, number: u64) -> u8 {
    // SAFETY: as above.
    unsafe { c::rtpw_receiver_standing_of(receiver, number) }
}

pub fn wide_receiver_start(receiver: &mut WideState, rollover_count: u64) -> i32 {
    // SAFETY: as above, where these are exclusive: receiver.
    unsafe { c::rtpw_wide_receiver_start(receiver, rollover_count) }
}

pub fn wide_receiver_number_of(receiver: &WideState, sequence_number: u16) -> u64 {
    // SAFETY: as above.
    unsafe { c::rtpw_wide_receiver_number_of(receiver, sequence_number) }
}

pub fn wide_receiver_accepts(receiver: &WideState, words: &[u64], number: u64) -> bool {
    // SAFETY: as above.
    unsafe { c::rtpw_wide_receiver_accepts(receiver, words.as_ptr(), words.len(), number) }
}

pub fn wide_receiver_record(receiver: &mut WideState, words: &mut [u64], number: u64) -> i32 {
    // SAFETY: as above, where these are exclusive: receiver, words.
    unsafe { c::rtpw_wide_receiver_record(receiver, words.as_mut_ptr(), words.len(), number) }
}

pub fn wide_receiver_receive(receiver: &mut WideState, words: &mut [u64], sequence_number: u16) -> Option<u64> {
    let mut number = 0;
    // SAFETY: as above, where these are exclusive: receiver, words, number.
    let status = unsafe { c::rtpw_wide_receiver_receive(receiver, words.as_mut_ptr(), words.len(), sequence_number, &mut number) };
    (status == OK).then_some(number)
}

pub fn wide_receiver_standing_of(receiver: &WideState, words: &[u64], number: u64) -> u8 {
    // SAFETY: as above.
    unsafe { c::rtpw_wide_receiver_standing_of(receiver, words.as_ptr(), words.len(), number) }
}

pub fn restarting_receive(receiver: &mut NarrowRestartingState, sequence_number: u16) -> (i32, u64) {
    let mut number = 0;
    // SAFETY: as above, where these are exclusive: receiver, number.
    let status = unsafe { c::rtpw_restarting_receive(receiver, sequence_number, &mut number) };
    (status, number)
}

pub fn reception_record(reception: &mut ReceptionState, number: u64, timestamp: u32, arrival: u32) {
    // SAFETY: as above, where these are exclusive: reception.
    unsafe { c::rtpw_reception_record(reception, number, timestamp, arrival) }
}

pub fn reception_report(reception: &mut ReceptionState) -> Option<ReceptionReport> {
    let mut report = ReceptionReport::default();
    // SAFETY: as above, where these are exclusive: reception, report.
    let status = unsafe { c::rtpw_reception_report(reception, &mut report) };
    (status == OK).then_some(report)
}

pub fn write_report(report: &ReceptionReport, ssrc: u32, last_report: u32, delay: u32, buf: &mut [u8], len: &mut usize) -> i32 {
    // SAFETY: as above, where these are exclusive: buf, len.
    unsafe { c::rtpw_write_report(report, ssrc, last_report, delay, buf.as_mut_ptr(), buf.len(), len) }
}

pub fn wide_restarting_receive(receiver: &mut RestartingState, words: &mut [u64], sequence_number: u16) -> (i32, u64) {
    let mut number = 0;
    // SAFETY: as above, where these are exclusive: receiver, words, number.
    let status = unsafe { c::rtpw_wide_restarting_receive(receiver, words.as_mut_ptr(), words.len(), sequence_number, &mut number) };
    (status, number)
}

pub fn extend_u8(previous: u64, number: u8) -> u64 {
    // SAFETY: as above.
    unsafe { c::rtpw_extend_u8(previous, number) }
}

pub fn extend_u15(previous: u64, number: u16) -> u64 {
    // SAFETY: as above.
    unsafe { c::rtpw_extend_u15(previous, number) }
}

pub fn extend_u16(previous: u64, number: u16) -> u64 {
    // SAFETY: as above.
    unsafe { c::rtpw_extend_u16(previous, number) }
}

pub fn extend_u32(previous: u64, number: u32) -> u64 {
    // SAFETY: as above.
    unsafe { c::rtpw_extend_u32(previous, number) }
}

pub fn read_many(buf: &[u8], map: &StoredMap, datagrams: &mut [WholeSlot]) {
    // SAFETY: as above, where these are exclusive: datagrams.
    unsafe { c::rtpw_read_many(buf.as_ptr(), buf.len(), map, datagrams.as_mut_ptr(), datagrams.len()) }
}

pub fn packet_parse_many(buf: &[u8], datagrams: &mut [PacketSlot]) {
    // SAFETY: as above, where these are exclusive: datagrams.
    unsafe { c::rtpw_packet_parse_many(buf.as_ptr(), buf.len(), datagrams.as_mut_ptr(), datagrams.len()) }
}

pub fn parse_many(buf: &[u8], map: &StoredMap, datagrams: &mut [HeaderSlot]) {
    // SAFETY: as above, where these are exclusive: datagrams.
    unsafe { c::rtpw_parse_many(buf.as_ptr(), buf.len(), map, datagrams.as_mut_ptr(), datagrams.len()) }
}

pub fn receive_many(receivers: &mut [crate::receiver::Receiver], arrivals: &mut [ArrivalSlot]) {
    // SAFETY: as above, where these are exclusive: receivers, arrivals.
    unsafe { c::rtpw_receive_many(receivers.as_mut_ptr().cast(), receivers.len(), arrivals.as_mut_ptr(), arrivals.len()) }
}

pub fn make_template(datagram: &[u8], ids: &StoredNewIds, data: &[u8], elements: &[Place], allowed: u8, buf: &mut [u8], made: &mut TemplateParts) -> i32 {
    // SAFETY: as above, where these are exclusive: buf, made.
    unsafe { c::rtpw_make_template(datagram.as_ptr(), datagram.len(), ids, data.as_ptr(), data.len(), elements.as_ptr(), elements.len(), allowed, buf.as_mut_ptr(), buf.len(), made) }
}

pub fn prepare_group(ids: &StoredNewIds, elements: &[Place], allowed: u8, group: &mut StoredGroup) -> i32 {
    // SAFETY: as above, where these are exclusive: group.
    unsafe { c::rtpw_prepare_group(ids, elements.as_ptr(), elements.len(), allowed, group) }
}

pub fn make_from_group(group: &StoredGroup, datagram: &[u8], buf: &mut [u8], made: &mut TemplateParts) -> i32 {
    // SAFETY: as above, where these are exclusive: buf, made.
    unsafe { c::rtpw_make_from_group(group, datagram.as_ptr(), datagram.len(), buf.as_mut_ptr(), buf.len(), made) }
}

pub fn write_headers(made: &TemplateParts, header: &[u8], data: &[u8], receivers: &mut [RoutedSlot], buf: &mut [u8]) -> i32 {
    // SAFETY: as above, where these are exclusive: receivers, buf.
    unsafe { c::rtpw_write_headers(made, header.as_ptr(), header.len(), data.as_ptr(), data.len(), receivers.as_mut_ptr(), receivers.len(), buf.as_mut_ptr(), buf.len()) }
}
