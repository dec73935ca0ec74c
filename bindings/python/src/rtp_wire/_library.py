# Made by bindings/described/make of bindings/c/rtp_wire.h.
"""The structs and functions of rtp_wire.h."""

from ctypes import (
    POINTER,
    Structure,
    c_bool,
    c_char,
    c_int32,
    c_int64,
    c_int8,
    c_size_t,
    c_uint16,
    c_uint32,
    c_uint64,
    c_uint8,
    c_void_p,
)
from typing import Any, Dict, Tuple, cast

from ._loaded import declare

BYTES, SIZE, STATUS = c_void_p, c_size_t, c_int32

# What each status says.
TEXTS: Dict[int, str] = {
    0: "done",
    1: "fewer than twelve bytes",
    2: "another version than 2",
    3: "the CSRC list is cut short",
    4: "the header of the extension block is cut short",
    5: "a header extension of an unknown form",
    6: "the extension block is cut short",
    8: "a buffer is too short",
    9: "an argument is out of its range",
    10: "a replay, or too old to tell",
    11: "no such element",
    12: "taken, and the sender has started again",
    13: "the id 0, which no element has",
    14: "a form of the extension block that isn't allowed",
    15: "an extension block of more than 65,535 words",
    16: "an id above 14, which the one-byte form can't carry",
    17: "a packet of RTCP",
}

# The least and the most that may be written of a field.
RANGES: Dict[str, Tuple[int, int]] = {
    "RawFields.payload_type": (0, 127),
    "RawValues.audio_level": (-127, 0),
    "RawHeader.payload_type": (0, 127),
    "RawHeader.csrc_count": (0, 15),
    "RawFrameMarking.temporal_id": (0, 7),
    "RawOrientation.camera": (0, 1),
    "RawTransportNumber.packets": (0, 32767),
    "RawColorSpace.range": (0, 3),
    "RawColorSpace.horizontal": (0, 2),
    "RawColorSpace.vertical": (0, 2),
    "RawDependencyDescriptor.template_id": (0, 63),
}


class RawPacket(Structure):
    payload_at: int
    payload_len: int
    unpadded_len: int
    body_at: int
    body_len: int
    timestamp: int
    ssrc: int
    sequence_number: int
    payload_type: int
    csrc_count: int
    marker: int
    has_padding: int
    padding_fits: int
    block_form: int
    block_profile: int
    _fields_ = [
        ("payload_at", c_size_t),
        ("payload_len", c_size_t),
        ("unpadded_len", c_size_t),
        ("body_at", c_size_t),
        ("body_len", c_size_t),
        ("timestamp", c_uint32),
        ("ssrc", c_uint32),
        ("sequence_number", c_uint16),
        ("payload_type", c_uint8),
        ("csrc_count", c_uint8),
        ("marker", c_uint8),
        ("has_padding", c_uint8),
        ("padding_fits", c_uint8),
        ("block_form", c_uint8),
        ("block_profile", c_uint16),
    ]


class RawFields(Structure):
    timestamp: int
    ssrc: int
    sequence_number: int
    payload_type: int
    marker: int
    has_timestamp: int
    has_ssrc: int
    has_sequence_number: int
    has_payload_type: int
    has_marker: int
    _fields_ = [
        ("timestamp", c_uint32),
        ("ssrc", c_uint32),
        ("sequence_number", c_uint16),
        ("payload_type", c_uint8),
        ("marker", c_uint8),
        ("has_timestamp", c_uint8),
        ("has_ssrc", c_uint8),
        ("has_sequence_number", c_uint8),
        ("has_payload_type", c_uint8),
        ("has_marker", c_uint8),
    ]


class RawElement(Structure):
    data_at: int
    data_len: int
    end: int
    id: int
    _fields_ = [
        ("data_at", c_size_t),
        ("data_len", c_size_t),
        ("end", c_size_t),
        ("id", c_uint8),
    ]


class RawMap(Structure):
    kind: Any
    _fields_ = [
        ("kind", c_uint8 * 256),
    ]


class RawTime(Structure):
    ticks: int
    hertz: int
    _fields_ = [
        ("ticks", c_uint64),
        ("hertz", c_uint32),
    ]


# What each of RawValues.has is for, in order: in C has_send_time and so on.
VALUES = ("send_time", "capture_time", "capture_offset", "transmission_offset", "frame_marking", "transport_number",
    "video_orientation", "video_content_type", "audio_level", "voice_activity", "playout_delay_min",
    "playout_delay_max", "video_timing", "mid", "rid", "repaired_rid", "layers")


class RawValues(Structure):
    send_time: int
    capture_time: int
    capture_offset: int
    playout_delay_min: RawTime
    playout_delay_max: RawTime
    transmission_offset: int
    frame_marking: int
    transport_number: int
    video_orientation: int
    encode_start: int
    encode_finish: int
    packetize_complete: int
    last_left_pacer: int
    timing_flags: int
    video_content_type: int
    audio_level: int
    voice_activity: int
    mid: bytes
    rid: bytes
    repaired_rid: bytes
    has: Any
    _fields_ = [
        ("send_time", c_uint64),
        ("capture_time", c_uint64),
        ("capture_offset", c_int64),
        ("playout_delay_min", cast(Any, RawTime)),
        ("playout_delay_max", cast(Any, RawTime)),
        ("transmission_offset", c_uint32),
        ("frame_marking", c_uint32),
        ("transport_number", c_uint16),
        ("video_orientation", c_uint16),
        ("encode_start", c_uint16),
        ("encode_finish", c_uint16),
        ("packetize_complete", c_uint16),
        ("last_left_pacer", c_uint16),
        ("timing_flags", c_uint8),
        ("video_content_type", c_uint8),
        ("audio_level", c_int8),
        ("voice_activity", c_uint8),
        ("mid", c_char * 17),
        ("rid", c_char * 9),
        ("repaired_rid", c_char * 9),
        ("has", c_uint8 * 17),
    ]


class RawHeader(Structure):
    header_len: int
    timestamp: int
    ssrc: int
    csrc: Any
    sequence_number: int
    payload_type: int
    csrc_count: int
    marker: int
    has_padding: int
    has_extension: int
    values: RawValues
    _fields_ = [
        ("header_len", c_size_t),
        ("timestamp", c_uint32),
        ("ssrc", c_uint32),
        ("csrc", c_uint32 * 15),
        ("sequence_number", c_uint16),
        ("payload_type", c_uint8),
        ("csrc_count", c_uint8),
        ("marker", c_uint8),
        ("has_padding", c_uint8),
        ("has_extension", c_uint8),
        ("values", cast(Any, RawValues)),
    ]


class RawWholePacket(RawHeader):
    unpadded_len: int
    body_at: int
    body_len: int
    block_profile: int
    block_form: int
    padding_fits: int
    _fields_ = [
        ("unpadded_len", c_size_t),
        ("body_at", c_size_t),
        ("body_len", c_size_t),
        ("block_profile", c_uint16),
        ("block_form", c_uint8),
        ("padding_fits", c_uint8),
    ]


class RawLayer(Structure):
    kbps: Any
    width: int
    height: int
    framerate: int
    has_resolution: int
    rates: int
    _fields_ = [
        ("kbps", c_uint64 * 4),
        ("width", c_uint16),
        ("height", c_uint16),
        ("framerate", c_uint8),
        ("has_resolution", c_uint8),
        ("rates", c_uint8),
    ]


class RawStream(Structure):
    layers: Any
    count: int
    _fields_ = [
        ("layers", RawLayer * 4),
        ("count", c_uint8),
    ]


class RawLayers(Structure):
    streams: Any
    count: int
    current: int
    _fields_ = [
        ("streams", RawStream * 4),
        ("count", c_uint8),
        ("current", c_uint8),
    ]


class RawFrameMarking(Structure):
    start: int
    end: int
    independent: int
    discardable: int
    has_layers: int
    base_layer_sync: int
    temporal_id: int
    layer_id: int
    has_tl0_pic_idx: int
    tl0_pic_idx: int
    _fields_ = [
        ("start", c_uint8),
        ("end", c_uint8),
        ("independent", c_uint8),
        ("discardable", c_uint8),
        ("has_layers", c_uint8),
        ("base_layer_sync", c_uint8),
        ("temporal_id", c_uint8),
        ("layer_id", c_uint8),
        ("has_tl0_pic_idx", c_uint8),
        ("tl0_pic_idx", c_uint8),
    ]


class RawOrientation(Structure):
    turn: int
    camera: int
    flip: int
    _fields_ = [
        ("turn", c_uint16),
        ("camera", c_uint8),
        ("flip", c_uint8),
    ]


class RawTiming(Structure):
    encode_start: int
    encode_finish: int
    packetize_complete: int
    last_left_pacer: int
    network: int
    network2: int
    flags: int
    has_flags: int
    _fields_ = [
        ("encode_start", c_uint16),
        ("encode_finish", c_uint16),
        ("packetize_complete", c_uint16),
        ("last_left_pacer", c_uint16),
        ("network", c_uint16),
        ("network2", c_uint16),
        ("flags", c_uint8),
        ("has_flags", c_uint8),
    ]


class RawTransportNumber(Structure):
    number: int
    packets: int
    has_request: int
    timestamps: int
    _fields_ = [
        ("number", c_uint16),
        ("packets", c_uint16),
        ("has_request", c_uint8),
        ("timestamps", c_uint8),
    ]


class RawChromaticity(Structure):
    x: int
    y: int
    _fields_ = [
        ("x", c_uint16),
        ("y", c_uint16),
    ]


class RawHdrMetadata(Structure):
    luminance_max: int
    luminance_min: int
    red: RawChromaticity
    green: RawChromaticity
    blue: RawChromaticity
    white: RawChromaticity
    max_content_light_level: int
    max_frame_average_light_level: int
    _fields_ = [
        ("luminance_max", c_uint16),
        ("luminance_min", c_uint16),
        ("red", cast(Any, RawChromaticity)),
        ("green", cast(Any, RawChromaticity)),
        ("blue", cast(Any, RawChromaticity)),
        ("white", cast(Any, RawChromaticity)),
        ("max_content_light_level", c_uint16),
        ("max_frame_average_light_level", c_uint16),
    ]


class RawColorSpace(Structure):
    hdr: RawHdrMetadata
    primaries: int
    transfer: int
    matrix: int
    range: int
    horizontal: int
    vertical: int
    has_hdr: int
    _fields_ = [
        ("hdr", cast(Any, RawHdrMetadata)),
        ("primaries", c_uint8),
        ("transfer", c_uint8),
        ("matrix", c_uint8),
        ("range", c_uint8),
        ("horizontal", c_uint8),
        ("vertical", c_uint8),
        ("has_hdr", c_uint8),
    ]


class RawDependencyDescriptor(Structure):
    frame_number: int
    start_of_frame: int
    end_of_frame: int
    template_id: int
    _fields_ = [
        ("frame_number", c_uint16),
        ("start_of_frame", c_uint8),
        ("end_of_frame", c_uint8),
        ("template_id", c_uint8),
    ]


class RawNewIds(Structure):
    id: Any
    _fields_ = [
        ("id", c_uint8 * 256),
    ]


class RawReceiver(Structure):
    highest: int
    recorded_low: int
    recorded_high: int
    started: int
    _fields_ = [
        ("highest", c_uint64),
        ("recorded_low", c_uint64),
        ("recorded_high", c_uint64),
        ("started", c_uint8),
    ]


class RawWideReceiver(Structure):
    highest: int
    started: int
    _fields_ = [
        ("highest", c_uint64),
        ("started", c_uint8),
    ]


class RawReception(Structure):
    first: int
    highest: int
    received: int
    received_before: int
    expected_before: int
    scaled_jitter: int
    transit: int
    _fields_ = [
        ("first", c_uint64),
        ("highest", c_uint64),
        ("received", c_uint64),
        ("received_before", c_uint64),
        ("expected_before", c_uint64),
        ("scaled_jitter", c_uint64),
        ("transit", c_uint32),
    ]


class RawReport(Structure):
    fraction_lost: int
    cumulative_lost: int
    extended_highest: int
    jitter: int
    _fields_ = [
        ("fraction_lost", c_uint8),
        ("cumulative_lost", c_int32),
        ("extended_highest", c_uint32),
        ("jitter", c_uint32),
    ]


class RawWideRestartingReceiver(Structure):
    highest: int
    max_dropout: int
    max_misorder: int
    next: int
    min_sequential: int
    in_row: int
    started: int
    _fields_ = [
        ("highest", c_uint64),
        ("max_dropout", c_uint16),
        ("max_misorder", c_uint16),
        ("next", c_uint16),
        ("min_sequential", c_uint8),
        ("in_row", c_uint8),
        ("started", c_uint8),
    ]


class RawWholeDatagram(Structure):
    at: int
    len: int
    packet: RawWholePacket
    status: int
    _fields_ = [
        ("at", c_size_t),
        ("len", c_size_t),
        ("packet", cast(Any, RawWholePacket)),
        ("status", c_int32),
    ]


class RawDatagram(Structure):
    at: int
    len: int
    packet: RawPacket
    status: int
    is_rtcp: int
    _fields_ = [
        ("at", c_size_t),
        ("len", c_size_t),
        ("packet", cast(Any, RawPacket)),
        ("status", c_int32),
        ("is_rtcp", c_uint8),
    ]


class RawArrival(Structure):
    receiver: int
    number: int
    sequence_number: int
    status: int
    _fields_ = [
        ("receiver", c_size_t),
        ("number", c_uint64),
        ("sequence_number", c_uint16),
        ("status", c_int32),
    ]


class RawTemplate(Structure):
    header_len: int
    data_at: Any
    data_total: int
    count: int
    data_len: Any
    _fields_ = [
        ("header_len", c_uint32),
        ("data_at", c_uint32 * 16),
        ("data_total", c_uint16),
        ("count", c_uint8),
        ("data_len", c_uint8 * 16),
    ]


class RawGroup(Structure):
    new_ids: Any
    numbers: Any
    element_ids: Any
    data_lens: Any
    data_total: int
    count: int
    allowed: int
    one_byte: int
    _fields_ = [
        ("new_ids", c_uint8 * 256),
        ("numbers", c_uint8 * 256),
        ("element_ids", c_uint8 * 16),
        ("data_lens", c_uint8 * 16),
        ("data_total", c_uint16),
        ("count", c_uint8),
        ("allowed", c_uint8),
        ("one_byte", c_uint8),
    ]


class RawRoutedHeader(Structure):
    data_at: int
    at: int
    fields: RawFields
    original_number: int
    is_retransmission: int
    clears_padding: int
    status: int
    len: int
    _fields_ = [
        ("data_at", c_size_t),
        ("at", c_size_t),
        ("fields", cast(Any, RawFields)),
        ("original_number", c_uint16),
        ("is_retransmission", c_uint8),
        ("clears_padding", c_uint8),
        ("status", c_int32),
        ("len", c_uint32),
    ]


is_rtcp = declare(c_bool, "rtpw_is_rtcp", BYTES, SIZE)
packet_parse = declare(STATUS, "rtpw_packet_parse", BYTES, SIZE, POINTER(RawPacket))
set_marker = declare(STATUS, "rtpw_set_marker", BYTES, SIZE, c_bool)
set_payload_type = declare(STATUS, "rtpw_set_payload_type", BYTES, SIZE, c_uint8)
set_sequence_number = declare(STATUS, "rtpw_set_sequence_number", BYTES, SIZE, c_uint16)
set_timestamp = declare(STATUS, "rtpw_set_timestamp", BYTES, SIZE, c_uint32)
set_ssrc = declare(STATUS, "rtpw_set_ssrc", BYTES, SIZE, c_uint32)
set_fields = declare(STATUS, "rtpw_set_fields", BYTES, SIZE, POINTER(RawFields))
set_csrc = declare(STATUS, "rtpw_set_csrc", BYTES, SIZE, SIZE, c_uint32)
set_element = declare(STATUS, "rtpw_set_element", BYTES, SIZE, c_uint8, BYTES, SIZE)
remove_element = declare(STATUS, "rtpw_remove_element", BYTES, SIZE, c_uint8)
set_padding = declare(STATUS, "rtpw_set_padding", BYTES, SIZE, c_bool)
remove_padding = declare(STATUS, "rtpw_remove_padding", BYTES, SIZE, POINTER(c_size_t))
put_element = declare(STATUS, "rtpw_put_element", BYTES, SIZE, POINTER(c_size_t), c_uint8, BYTES, SIZE, c_uint8)
add_element = declare(STATUS, "rtpw_add_element", BYTES, SIZE, POINTER(c_size_t), c_uint8, BYTES, SIZE, c_uint8)
compact = declare(STATUS, "rtpw_compact", BYTES, SIZE, POINTER(c_size_t))
change_form = declare(STATUS, "rtpw_change_form", BYTES, SIZE, POINTER(c_size_t), c_uint8)
remove_block = declare(STATUS, "rtpw_remove_block", BYTES, SIZE, POINTER(c_size_t))
put_block = declare(STATUS, "rtpw_put_block", BYTES, SIZE, POINTER(c_size_t), c_uint16, BYTES, SIZE)
next_element = declare(STATUS, "rtpw_next_element", BYTES, SIZE, c_uint8, SIZE, POINTER(RawElement))
next_elements = declare(c_size_t, "rtpw_next_elements", BYTES, SIZE, c_uint8, SIZE, POINTER(RawElement), SIZE)
last_element = declare(STATUS, "rtpw_last_element", BYTES, SIZE, c_uint8, c_uint8, POINTER(RawElement))
kind_of_uri = declare(c_uint8, "rtpw_kind_of_uri", BYTES, SIZE)
uri_of_kind = declare(STATUS, "rtpw_uri_of_kind", c_uint8, BYTES, SIZE, POINTER(c_size_t))
map_set = declare(STATUS, "rtpw_map_set", POINTER(RawMap), c_uint8, c_uint8)
map_remove = declare(None, "rtpw_map_remove", POINTER(RawMap), c_uint8)
map_get = declare(c_uint8, "rtpw_map_get", POINTER(RawMap), c_uint8)
id_of = declare(c_uint8, "rtpw_id_of", POINTER(RawMap), c_uint8)
map_standard = declare(None, "rtpw_map_standard", POINTER(RawMap))
values_read = declare(STATUS, "rtpw_values_read", BYTES, SIZE, c_uint8, POINTER(RawMap), POINTER(RawValues))
data_of = declare(STATUS, "rtpw_data_of", c_uint8, POINTER(RawValues), BYTES, SIZE, POINTER(c_size_t))
read = declare(STATUS, "rtpw_read", BYTES, SIZE, POINTER(RawMap), POINTER(RawWholePacket))
parse = declare(STATUS, "rtpw_parse", BYTES, SIZE, POINTER(RawMap), POINTER(RawHeader))
parse_layers = declare(STATUS, "rtpw_parse_layers", BYTES, SIZE, POINTER(RawMap), POINTER(RawHeader),
    POINTER(RawLayers))
wire_len = declare(STATUS, "rtpw_wire_len", POINTER(RawMap), POINTER(RawHeader), POINTER(c_size_t))
write = declare(STATUS, "rtpw_write", POINTER(RawMap), POINTER(RawHeader), BYTES, SIZE, POINTER(c_size_t))
wire_len_layers = declare(STATUS, "rtpw_wire_len_layers", POINTER(RawMap), POINTER(RawHeader), POINTER(RawLayers),
    POINTER(c_size_t))
write_layers = declare(STATUS, "rtpw_write_layers", POINTER(RawMap), POINTER(RawHeader), POINTER(RawLayers), BYTES,
    SIZE, POINTER(c_size_t))
left_out = declare(STATUS, "rtpw_left_out", POINTER(RawMap), POINTER(RawHeader), POINTER(c_uint32))
left_out_layers = declare(STATUS, "rtpw_left_out_layers", POINTER(RawMap), POINTER(RawHeader), POINTER(RawLayers),
    POINTER(c_uint32))
write_with = declare(STATUS, "rtpw_write_with", POINTER(RawHeader), BYTES, SIZE, POINTER(RawElement), SIZE, BYTES,
    SIZE, POINTER(c_size_t))
write_with_form = declare(STATUS, "rtpw_write_with_form", POINTER(RawHeader), BYTES, SIZE, POINTER(RawElement),
    SIZE, c_uint8, BYTES, SIZE, POINTER(c_size_t))
write_elements = declare(STATUS, "rtpw_write_elements", BYTES, SIZE, POINTER(RawElement), SIZE, c_uint8, BYTES,
    SIZE, POINTER(c_size_t))
read_send_time = declare(STATUS, "rtpw_read_send_time", BYTES, SIZE, POINTER(c_uint32))
write_send_time = declare(STATUS, "rtpw_write_send_time", c_uint32, BYTES, SIZE, POINTER(c_size_t))
extend_send_time = declare(c_uint64, "rtpw_extend_send_time", c_uint64, c_uint32)
read_transmission_offset = declare(STATUS, "rtpw_read_transmission_offset", BYTES, SIZE, POINTER(c_int32))
write_transmission_offset = declare(STATUS, "rtpw_write_transmission_offset", c_int32, BYTES, SIZE,
    POINTER(c_size_t))
read_frame_marking = declare(STATUS, "rtpw_read_frame_marking", BYTES, SIZE, POINTER(RawFrameMarking))
write_frame_marking = declare(STATUS, "rtpw_write_frame_marking", POINTER(RawFrameMarking), BYTES, SIZE,
    POINTER(c_size_t))
read_orientation = declare(STATUS, "rtpw_read_orientation", BYTES, SIZE, POINTER(RawOrientation))
write_orientation = declare(STATUS, "rtpw_write_orientation", POINTER(RawOrientation), BYTES, SIZE,
    POINTER(c_size_t))
is_token = declare(c_bool, "rtpw_is_token", BYTES, SIZE)
is_stream_id = declare(c_bool, "rtpw_is_stream_id", BYTES, SIZE)
read_timing = declare(STATUS, "rtpw_read_timing", BYTES, SIZE, POINTER(RawTiming))
write_timing = declare(STATUS, "rtpw_write_timing", POINTER(RawTiming), BYTES, SIZE, POINTER(c_size_t))
read_transport_number = declare(STATUS, "rtpw_read_transport_number", BYTES, SIZE, POINTER(RawTransportNumber))
write_transport_number = declare(STATUS, "rtpw_write_transport_number", POINTER(RawTransportNumber), BYTES, SIZE,
    POINTER(c_size_t))
read_mixer_level = declare(STATUS, "rtpw_read_mixer_level", BYTES, SIZE, SIZE, SIZE, POINTER(c_int8))
write_mixer_levels = declare(STATUS, "rtpw_write_mixer_levels", POINTER(c_int8), SIZE, BYTES, SIZE,
    POINTER(c_size_t))
read_ntp_64 = declare(STATUS, "rtpw_read_ntp_64", BYTES, SIZE, POINTER(c_uint64))
write_ntp_64 = declare(STATUS, "rtpw_write_ntp_64", c_uint64, BYTES, SIZE, POINTER(c_size_t))
read_ntp_56 = declare(STATUS, "rtpw_read_ntp_56", BYTES, SIZE, POINTER(c_uint64))
write_ntp_56 = declare(STATUS, "rtpw_write_ntp_56", c_uint64, BYTES, SIZE, POINTER(c_size_t))
extend_ntp_56 = declare(c_uint64, "rtpw_extend_ntp_56", c_uint64, c_uint64)
read_color_space = declare(STATUS, "rtpw_read_color_space", BYTES, SIZE, POINTER(RawColorSpace))
write_color_space = declare(STATUS, "rtpw_write_color_space", POINTER(RawColorSpace), BYTES, SIZE,
    POINTER(c_size_t))
read_dependency_descriptor = declare(STATUS, "rtpw_read_dependency_descriptor", BYTES, SIZE,
    POINTER(RawDependencyDescriptor))
write_dependency_descriptor = declare(STATUS, "rtpw_write_dependency_descriptor", POINTER(RawDependencyDescriptor),
    BYTES, SIZE, POINTER(c_size_t))
has_structure = declare(c_bool, "rtpw_has_structure", BYTES, SIZE)
new_ids_between = declare(None, "rtpw_new_ids_between", POINTER(RawMap), POINTER(RawMap), POINTER(RawNewIds))
renumber = declare(STATUS, "rtpw_renumber", BYTES, SIZE, POINTER(RawNewIds))
pad = declare(STATUS, "rtpw_pad", BYTES, SIZE, SIZE, c_uint8, SIZE, POINTER(c_size_t))
read_original = declare(STATUS, "rtpw_read_original", BYTES, SIZE, POINTER(c_uint16))
write_original = declare(STATUS, "rtpw_write_original", BYTES, SIZE, c_uint64)
new_ids_to_retransmission = declare(None, "rtpw_new_ids_to_retransmission", POINTER(RawMap), POINTER(RawNewIds))
new_ids_from_retransmission = declare(None, "rtpw_new_ids_from_retransmission", POINTER(RawMap), POINTER(RawNewIds))
to_retransmission = declare(STATUS, "rtpw_to_retransmission", BYTES, SIZE, POINTER(c_size_t), c_uint32, c_uint8,
    c_uint16, POINTER(RawNewIds))
from_retransmission = declare(STATUS, "rtpw_from_retransmission", BYTES, SIZE, POINTER(c_size_t), c_uint32, c_uint8,
    POINTER(RawNewIds))
receiver_start = declare(STATUS, "rtpw_receiver_start", POINTER(RawReceiver), c_uint64)
receiver_number_of = declare(c_uint64, "rtpw_receiver_number_of", POINTER(RawReceiver), c_uint16)
receiver_accepts = declare(c_bool, "rtpw_receiver_accepts", POINTER(RawReceiver), c_uint64)
receiver_record = declare(None, "rtpw_receiver_record", POINTER(RawReceiver), c_uint64)
receiver_receive = declare(STATUS, "rtpw_receiver_receive", POINTER(RawReceiver), c_uint16, POINTER(c_uint64))
receiver_standing_of = declare(c_uint8, "rtpw_receiver_standing_of", POINTER(RawReceiver), c_uint64)
wide_receiver_start = declare(STATUS, "rtpw_wide_receiver_start", POINTER(RawWideReceiver), c_uint64)
wide_receiver_number_of = declare(c_uint64, "rtpw_wide_receiver_number_of", POINTER(RawWideReceiver), c_uint16)
wide_receiver_accepts = declare(c_bool, "rtpw_wide_receiver_accepts", POINTER(RawWideReceiver), POINTER(c_uint64),
    SIZE, c_uint64)
wide_receiver_record = declare(STATUS, "rtpw_wide_receiver_record", POINTER(RawWideReceiver), POINTER(c_uint64),
    SIZE, c_uint64)
wide_receiver_receive = declare(STATUS, "rtpw_wide_receiver_receive", POINTER(RawWideReceiver), POINTER(c_uint64),
    SIZE, c_uint16, POINTER(c_uint64))
wide_receiver_standing_of = declare(c_uint8, "rtpw_wide_receiver_standing_of", POINTER(RawWideReceiver),
    POINTER(c_uint64), SIZE, c_uint64)
reception_record = declare(None, "rtpw_reception_record", POINTER(RawReception), c_uint64, c_uint32, c_uint32)
reception_report = declare(STATUS, "rtpw_reception_report", POINTER(RawReception), POINTER(RawReport))
write_report = declare(STATUS, "rtpw_write_report", POINTER(RawReport), c_uint32, c_uint32, c_uint32, BYTES, SIZE,
    POINTER(c_size_t))
wide_restarting_receive = declare(STATUS, "rtpw_wide_restarting_receive", POINTER(RawWideRestartingReceiver),
    POINTER(c_uint64), SIZE, c_uint16, POINTER(c_uint64))
extend_u8 = declare(c_uint64, "rtpw_extend_u8", c_uint64, c_uint8)
extend_u15 = declare(c_uint64, "rtpw_extend_u15", c_uint64, c_uint16)
extend_u16 = declare(c_uint64, "rtpw_extend_u16", c_uint64, c_uint16)
extend_u32 = declare(c_uint64, "rtpw_extend_u32", c_uint64, c_uint32)
read_many = declare(None, "rtpw_read_many", BYTES, SIZE, POINTER(RawMap), POINTER(RawWholeDatagram), SIZE)
packet_parse_many = declare(None, "rtpw_packet_parse_many", BYTES, SIZE, POINTER(RawDatagram), SIZE)
receive_many = declare(None, "rtpw_receive_many", POINTER(RawReceiver), SIZE, POINTER(RawArrival), SIZE)
make_template = declare(STATUS, "rtpw_make_template", BYTES, SIZE, POINTER(RawNewIds), BYTES, SIZE,
    POINTER(RawElement), SIZE, c_uint8, BYTES, SIZE, POINTER(RawTemplate))
prepare_group = declare(STATUS, "rtpw_prepare_group", POINTER(RawNewIds), POINTER(RawElement), SIZE, c_uint8,
    POINTER(RawGroup))
make_from_group = declare(STATUS, "rtpw_make_from_group", POINTER(RawGroup), BYTES, SIZE, BYTES, SIZE,
    POINTER(RawTemplate))
write_headers = declare(STATUS, "rtpw_write_headers", POINTER(RawTemplate), BYTES, SIZE, BYTES, SIZE,
    POINTER(RawRoutedHeader), SIZE, BYTES, SIZE)
