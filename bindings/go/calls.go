// Made by bindings/described/make of bindings/c/rtp_wire.h: do not edit.

package rtpwire

import "unsafe"

// The statuses, the structs and the functions of rtp_wire.h.

const (
	statusOK             = 0
	statusCutFixedPart   = 1
	statusOtherVersion   = 2
	statusCutSources     = 3
	statusCutBlockHeader = 4
	statusUnknownForm    = 5
	statusCutBlock       = 6
	statusShortBuffer    = 8
	statusBadField       = 9
	statusRefused        = 10
	statusNone           = 11
	statusRestarted      = 12
	statusBadID          = 13
	statusFormNotAllowed = 14
	statusLongBlock      = 15
	statusLongID         = 16
	statusRTCP           = 17
)

type rtpw_packet struct {
	payload_at      uintptr
	payload_len     uintptr
	unpadded_len    uintptr
	body_at         uintptr
	body_len        uintptr
	timestamp       uint32
	ssrc            uint32
	sequence_number uint16
	payload_type    byte
	csrc_count      byte
	marker          byte
	has_padding     byte
	padding_fits    byte
	block_form      byte
	block_profile   uint16
}

type rtpw_fields struct {
	timestamp           uint32
	ssrc                uint32
	sequence_number     uint16
	payload_type        byte
	marker              byte
	has_timestamp       byte
	has_ssrc            byte
	has_sequence_number byte
	has_payload_type    byte
	has_marker          byte
}

type rtpw_element struct {
	data_at  uintptr
	data_len uintptr
	end      uintptr
	id       byte
}

type rtpw_map struct {
	kind [256]byte
}

type rtpw_time struct {
	ticks uint64
	hertz uint32
}

type rtpw_values struct {
	send_time               uint64
	capture_time            uint64
	capture_offset          int64
	playout_delay_min       rtpw_time
	playout_delay_max       rtpw_time
	transmission_offset     uint32
	frame_marking           uint32
	transport_number        uint16
	video_orientation       uint16
	encode_start            uint16
	encode_finish           uint16
	packetize_complete      uint16
	last_left_pacer         uint16
	timing_flags            byte
	video_content_type      byte
	audio_level             int8
	voice_activity          byte
	mid                     [17]byte
	rid                     [9]byte
	repaired_rid            [9]byte
	has_send_time           byte
	has_capture_time        byte
	has_capture_offset      byte
	has_transmission_offset byte
	has_frame_marking       byte
	has_transport_number    byte
	has_video_orientation   byte
	has_video_content_type  byte
	has_audio_level         byte
	has_voice_activity      byte
	has_playout_delay_min   byte
	has_playout_delay_max   byte
	has_video_timing        byte
	has_mid                 byte
	has_rid                 byte
	has_repaired_rid        byte
	has_layers              byte
}

type rtpw_header struct {
	header_len      uintptr
	timestamp       uint32
	ssrc            uint32
	csrc            [15]uint32
	sequence_number uint16
	payload_type    byte
	csrc_count      byte
	marker          byte
	has_padding     byte
	has_extension   byte
	values          rtpw_values
}

type rtpw_whole_packet struct {
	header        rtpw_header
	unpadded_len  uintptr
	body_at       uintptr
	body_len      uintptr
	block_profile uint16
	block_form    byte
	padding_fits  byte
}

type rtpw_layer struct {
	kbps           [4]uint64
	width          uint16
	height         uint16
	framerate      byte
	has_resolution byte
	rates          byte
}

type rtpw_stream struct {
	layers [4]rtpw_layer
	count  byte
}

type rtpw_layers struct {
	streams [4]rtpw_stream
	count   byte
	current byte
}

type rtpw_frame_marking struct {
	start           byte
	end             byte
	independent     byte
	discardable     byte
	has_layers      byte
	base_layer_sync byte
	temporal_id     byte
	layer_id        byte
	has_tl0_pic_idx byte
	tl0_pic_idx     byte
}

type rtpw_orientation struct {
	turn   uint16
	camera byte
	flip   byte
}

type rtpw_timing struct {
	encode_start       uint16
	encode_finish      uint16
	packetize_complete uint16
	last_left_pacer    uint16
	network            uint16
	network2           uint16
	flags              byte
	has_flags          byte
}

type rtpw_transport_number struct {
	number      uint16
	packets     uint16
	has_request byte
	timestamps  byte
}

type rtpw_chromaticity struct {
	x uint16
	y uint16
}

type rtpw_hdr_metadata struct {
	luminance_max                 uint16
	luminance_min                 uint16
	red                           rtpw_chromaticity
	green                         rtpw_chromaticity
	blue                          rtpw_chromaticity
	white                         rtpw_chromaticity
	max_content_light_level       uint16
	max_frame_average_light_level uint16
}

type rtpw_color_space struct {
	hdr        rtpw_hdr_metadata
	primaries  byte
	transfer   byte
	matrix     byte
	range_     byte
	horizontal byte
	vertical   byte
	has_hdr    byte
}

type rtpw_dependency_descriptor struct {
	frame_number   uint16
	start_of_frame byte
	end_of_frame   byte
	template_id    byte
}

type rtpw_new_ids struct {
	id [256]byte
}

type rtpw_receiver struct {
	highest       uint64
	recorded_low  uint64
	recorded_high uint64
	started       byte
}

type rtpw_wide_receiver struct {
	highest uint64
	started byte
}

type rtpw_reception struct {
	first           uint64
	highest         uint64
	received        uint64
	received_before uint64
	expected_before uint64
	scaled_jitter   uint64
	transit         uint32
}

type rtpw_report struct {
	fraction_lost    byte
	cumulative_lost  int32
	extended_highest uint32
	jitter           uint32
}

type rtpw_wide_restarting_receiver struct {
	highest        uint64
	max_dropout    uint16
	max_misorder   uint16
	next           uint16
	min_sequential byte
	in_row         byte
	started        byte
}

type rtpw_datagram struct {
	at      uintptr
	len     uintptr
	packet  rtpw_packet
	status  int32
	is_rtcp byte
}

type rtpw_datagram_header struct {
	at      uintptr
	len     uintptr
	header  rtpw_header
	status  int32
	is_rtcp byte
}

type rtpw_arrival struct {
	receiver        uintptr
	number          uint64
	sequence_number uint16
	status          int32
}

type rtpw_template struct {
	header_len uint32
	data_at    [16]uint32
	data_total uint16
	count      byte
	data_len   [16]byte
}

type rtpw_group struct {
	new_ids     [256]byte
	numbers     [256]byte
	element_ids [16]byte
	data_lens   [16]byte
	data_total  uint16
	count       byte
	allowed     byte
	one_byte    byte
}

type rtpw_routed_header struct {
	data_at           uintptr
	at                uintptr
	fields            rtpw_fields
	original_number   uint16
	is_retransmission byte
	clears_padding    byte
	status            int32
	len               uint32
}

type rtpw_fixed_part struct {
	version         byte
	has_padding     byte
	has_extension   byte
	marker          byte
	payload_type    byte
	sequence_number uint16
	timestamp       uint32
	ssrc            uint32
}

type rtpw_layout struct {
	payload_at    uintptr
	unpadded_len  uintptr
	body_at       uintptr
	block_profile uint16
	block_form    byte
	csrc_count    byte
	padding_fits  byte
}

type rtpw_data_element struct {
	id       byte
	data     *byte
	data_len uintptr
	own      uintptr
}

//go:noescape
func text_version() uint32

func rtpw_version() uint32 {
	return text_version()
}

//go:noescape
func text_is_rtcp(datagram *byte, n uintptr) bool

func rtpw_is_rtcp(datagram *byte, n uintptr) bool {
	if racing {
		readsPacket(datagram, n)
	}
	return text_is_rtcp(datagram, n)
}

//go:noescape
func text_packet_parse(datagram *byte, n uintptr, packet *rtpw_packet) int32

func rtpw_packet_parse(datagram *byte, n uintptr, packet *rtpw_packet) int32 {
	if racing {
		readsPacket(datagram, n)
		writes(unsafe.Pointer(packet), unsafe.Sizeof(*packet))
	}
	return text_packet_parse(datagram, n, packet)
}

//go:noescape
func text_set_payload_type(datagram *byte, n uintptr, payload_type byte) int32

func rtpw_set_payload_type(datagram *byte, n uintptr, payload_type byte) int32 {
	if racing {
		readsPacket(datagram, n)
		status := text_set_payload_type(datagram, n, payload_type)
		if status == statusOK {
			writesHeader(datagram, n)
		}
		return status
	}
	return text_set_payload_type(datagram, n, payload_type)
}

//go:noescape
func text_set_fields(datagram *byte, n uintptr, fields *rtpw_fields) int32

func rtpw_set_fields(datagram *byte, n uintptr, fields *rtpw_fields) int32 {
	if racing {
		readsPacket(datagram, n)
		reads(unsafe.Pointer(fields), unsafe.Sizeof(*fields))
		status := text_set_fields(datagram, n, fields)
		if status == statusOK {
			writesHeader(datagram, n)
		}
		return status
	}
	return text_set_fields(datagram, n, fields)
}

//go:noescape
func text_set_csrc(datagram *byte, n uintptr, index uintptr, source uint32) int32

func rtpw_set_csrc(datagram *byte, n uintptr, index uintptr, source uint32) int32 {
	if racing {
		readsPacket(datagram, n)
		status := text_set_csrc(datagram, n, index, source)
		if status == statusOK {
			writesHeader(datagram, n)
		}
		return status
	}
	return text_set_csrc(datagram, n, index, source)
}

//go:noescape
func text_set_element(datagram *byte, n uintptr, id byte, data *byte, data_len uintptr) int32

func rtpw_set_element(datagram *byte, n uintptr, id byte, data *byte, data_len uintptr) int32 {
	if racing {
		readsPacket(datagram, n)
		reads(unsafe.Pointer(data), data_len*unsafe.Sizeof(*data))
		status := text_set_element(datagram, n, id, data, data_len)
		if status == statusOK {
			writesHeader(datagram, n)
		}
		return status
	}
	return text_set_element(datagram, n, id, data, data_len)
}

//go:noescape
func text_remove_element(datagram *byte, n uintptr, id byte) int32

func rtpw_remove_element(datagram *byte, n uintptr, id byte) int32 {
	if racing {
		readsPacket(datagram, n)
		status := text_remove_element(datagram, n, id)
		if status == statusOK {
			writesHeader(datagram, n)
		}
		return status
	}
	return text_remove_element(datagram, n, id)
}

//go:noescape
func text_set_padding(datagram *byte, n uintptr, has_padding bool) int32

func rtpw_set_padding(datagram *byte, n uintptr, has_padding bool) int32 {
	if racing {
		readsPacket(datagram, n)
		status := text_set_padding(datagram, n, has_padding)
		if status == statusOK {
			writesHeader(datagram, n)
		}
		return status
	}
	return text_set_padding(datagram, n, has_padding)
}

//go:noescape
func text_remove_padding(datagram *byte, n uintptr, new_len *uintptr) int32

func rtpw_remove_padding(datagram *byte, n uintptr, new_len *uintptr) int32 {
	if racing {
		readsPacket(datagram, n)
		status := text_remove_padding(datagram, n, new_len)
		if status == statusOK {
			writesHeader(datagram, n)
		}
		return status
	}
	return text_remove_padding(datagram, n, new_len)
}

//go:noescape
func text_put_element(buf *byte, size uintptr, n *uintptr, id byte, data *byte, data_len uintptr, allowed byte) int32

func rtpw_put_element(buf *byte, size uintptr, n *uintptr, id byte, data *byte, data_len uintptr, allowed byte) int32 {
	if racing {
		reads(unsafe.Pointer(buf), least(*n, size))
		reads(unsafe.Pointer(data), data_len*unsafe.Sizeof(*data))
		status := text_put_element(buf, size, n, id, data, data_len, allowed)
		if status == statusOK {
			writes(unsafe.Pointer(buf), *n)
		}
		return status
	}
	return text_put_element(buf, size, n, id, data, data_len, allowed)
}

//go:noescape
func text_add_element(buf *byte, size uintptr, n *uintptr, id byte, data *byte, data_len uintptr, allowed byte) int32

func rtpw_add_element(buf *byte, size uintptr, n *uintptr, id byte, data *byte, data_len uintptr, allowed byte) int32 {
	if racing {
		reads(unsafe.Pointer(buf), least(*n, size))
		reads(unsafe.Pointer(data), data_len*unsafe.Sizeof(*data))
		status := text_add_element(buf, size, n, id, data, data_len, allowed)
		if status == statusOK {
			writes(unsafe.Pointer(buf), *n)
		}
		return status
	}
	return text_add_element(buf, size, n, id, data, data_len, allowed)
}

//go:noescape
func text_compact(buf *byte, size uintptr, n *uintptr) int32

func rtpw_compact(buf *byte, size uintptr, n *uintptr) int32 {
	if racing {
		reads(unsafe.Pointer(buf), least(*n, size))
		status := text_compact(buf, size, n)
		if status == statusOK {
			writes(unsafe.Pointer(buf), *n)
		}
		return status
	}
	return text_compact(buf, size, n)
}

//go:noescape
func text_change_form(buf *byte, size uintptr, n *uintptr, form byte) int32

func rtpw_change_form(buf *byte, size uintptr, n *uintptr, form byte) int32 {
	if racing {
		reads(unsafe.Pointer(buf), least(*n, size))
		status := text_change_form(buf, size, n, form)
		if status == statusOK {
			writes(unsafe.Pointer(buf), *n)
		}
		return status
	}
	return text_change_form(buf, size, n, form)
}

//go:noescape
func text_remove_block(buf *byte, size uintptr, n *uintptr) int32

func rtpw_remove_block(buf *byte, size uintptr, n *uintptr) int32 {
	if racing {
		reads(unsafe.Pointer(buf), least(*n, size))
		status := text_remove_block(buf, size, n)
		if status == statusOK {
			writes(unsafe.Pointer(buf), *n)
		}
		return status
	}
	return text_remove_block(buf, size, n)
}

//go:noescape
func text_put_block(buf *byte, size uintptr, n *uintptr, profile uint16, body *byte, body_len uintptr) int32

func rtpw_put_block(buf *byte, size uintptr, n *uintptr, profile uint16, body *byte, body_len uintptr) int32 {
	if racing {
		reads(unsafe.Pointer(buf), least(*n, size))
		reads(unsafe.Pointer(body), body_len*unsafe.Sizeof(*body))
		status := text_put_block(buf, size, n, profile, body, body_len)
		if status == statusOK {
			writes(unsafe.Pointer(buf), *n)
		}
		return status
	}
	return text_put_block(buf, size, n, profile, body, body_len)
}

//go:noescape
func text_next_element(body *byte, body_len uintptr, form byte, at uintptr, element *rtpw_element) int32

func rtpw_next_element(body *byte, body_len uintptr, form byte, at uintptr, element *rtpw_element) int32 {
	if racing {
		reads(unsafe.Pointer(body), body_len*unsafe.Sizeof(*body))
		writes(unsafe.Pointer(element), unsafe.Sizeof(*element))
	}
	return text_next_element(body, body_len, form, at, element)
}

//go:noescape
func text_next_elements(body *byte, body_len uintptr, form byte, at uintptr, elements *rtpw_element, count uintptr) uintptr

func rtpw_next_elements(body *byte, body_len uintptr, form byte, at uintptr, elements *rtpw_element, count uintptr) uintptr {
	if racing {
		reads(unsafe.Pointer(body), body_len*unsafe.Sizeof(*body))
		found := text_next_elements(body, body_len, form, at, elements, count)
		writes(unsafe.Pointer(elements), found*unsafe.Sizeof(*elements))
		return found
	}
	return text_next_elements(body, body_len, form, at, elements, count)
}

//go:noescape
func text_last_element(body *byte, body_len uintptr, form byte, id byte, element *rtpw_element) int32

func rtpw_last_element(body *byte, body_len uintptr, form byte, id byte, element *rtpw_element) int32 {
	if racing {
		reads(unsafe.Pointer(body), body_len*unsafe.Sizeof(*body))
		writes(unsafe.Pointer(element), unsafe.Sizeof(*element))
	}
	return text_last_element(body, body_len, form, id, element)
}

//go:noescape
func text_kind_of_uri(uri *byte, n uintptr) byte

func rtpw_kind_of_uri(uri *byte, n uintptr) byte {
	if racing {
		reads(unsafe.Pointer(uri), n*unsafe.Sizeof(*uri))
	}
	return text_kind_of_uri(uri, n)
}

//go:noescape
func text_uri_of_kind(kind byte, buf *byte, size uintptr, n *uintptr) int32

func rtpw_uri_of_kind(kind byte, buf *byte, size uintptr, n *uintptr) int32 {
	if racing {
		status := text_uri_of_kind(kind, buf, size, n)
		if status == statusOK {
			writes(unsafe.Pointer(buf), *n)
		}
		return status
	}
	return text_uri_of_kind(kind, buf, size, n)
}

//go:noescape
func text_map_set(m *rtpw_map, id byte, kind byte) int32

func rtpw_map_set(m *rtpw_map, id byte, kind byte) int32 {
	if racing {
		writes(unsafe.Pointer(m), unsafe.Sizeof(*m))
	}
	return text_map_set(m, id, kind)
}

//go:noescape
func text_id_of(m *rtpw_map, kind byte) byte

func rtpw_id_of(m *rtpw_map, kind byte) byte {
	if racing {
		reads(unsafe.Pointer(m), unsafe.Sizeof(*m))
	}
	return text_id_of(m, kind)
}

//go:noescape
func text_map_standard(m *rtpw_map)

func rtpw_map_standard(m *rtpw_map) {
	if racing {
		writes(unsafe.Pointer(m), unsafe.Sizeof(*m))
	}
	text_map_standard(m)
}

//go:noescape
func text_values_read(body *byte, body_len uintptr, form byte, m *rtpw_map, values *rtpw_values) int32

func rtpw_values_read(body *byte, body_len uintptr, form byte, m *rtpw_map, values *rtpw_values) int32 {
	if racing {
		reads(unsafe.Pointer(body), body_len*unsafe.Sizeof(*body))
		reads(unsafe.Pointer(m), unsafe.Sizeof(*m))
		writes(unsafe.Pointer(values), unsafe.Sizeof(*values))
	}
	return text_values_read(body, body_len, form, m, values)
}

//go:noescape
func text_data_of(kind byte, values *rtpw_values, buf *byte, size uintptr, n *uintptr) int32

func rtpw_data_of(kind byte, values *rtpw_values, buf *byte, size uintptr, n *uintptr) int32 {
	if racing {
		reads(unsafe.Pointer(values), unsafe.Sizeof(*values))
		status := text_data_of(kind, values, buf, size, n)
		if status == statusOK {
			writes(unsafe.Pointer(buf), *n)
		}
		return status
	}
	return text_data_of(kind, values, buf, size, n)
}

//go:noescape
func text_read(datagram *byte, n uintptr, m *rtpw_map, packet *rtpw_whole_packet) int32

func rtpw_read(datagram *byte, n uintptr, m *rtpw_map, packet *rtpw_whole_packet) int32 {
	if racing {
		readsPacket(datagram, n)
		reads(unsafe.Pointer(m), unsafe.Sizeof(*m))
		writes(unsafe.Pointer(packet), unsafe.Sizeof(*packet))
	}
	return text_read(datagram, n, m, packet)
}

//go:noescape
func text_parse(datagram *byte, n uintptr, m *rtpw_map, header *rtpw_header) int32

func rtpw_parse(datagram *byte, n uintptr, m *rtpw_map, header *rtpw_header) int32 {
	if racing {
		readsPacket(datagram, n)
		reads(unsafe.Pointer(m), unsafe.Sizeof(*m))
		writes(unsafe.Pointer(header), unsafe.Sizeof(*header))
	}
	return text_parse(datagram, n, m, header)
}

//go:noescape
func text_parse_layers(datagram *byte, n uintptr, m *rtpw_map, header *rtpw_header, layers *rtpw_layers) int32

func rtpw_parse_layers(datagram *byte, n uintptr, m *rtpw_map, header *rtpw_header, layers *rtpw_layers) int32 {
	if racing {
		readsPacket(datagram, n)
		reads(unsafe.Pointer(m), unsafe.Sizeof(*m))
		writes(unsafe.Pointer(header), unsafe.Sizeof(*header))
		writes(unsafe.Pointer(layers), unsafe.Sizeof(*layers))
	}
	return text_parse_layers(datagram, n, m, header, layers)
}

//go:noescape
func text_wire_len(m *rtpw_map, header *rtpw_header, n *uintptr) int32

func rtpw_wire_len(m *rtpw_map, header *rtpw_header, n *uintptr) int32 {
	if racing {
		reads(unsafe.Pointer(m), unsafe.Sizeof(*m))
		reads(unsafe.Pointer(header), unsafe.Sizeof(*header))
	}
	return text_wire_len(m, header, n)
}

//go:noescape
func text_write(m *rtpw_map, header *rtpw_header, buf *byte, size uintptr, n *uintptr) int32

func rtpw_write(m *rtpw_map, header *rtpw_header, buf *byte, size uintptr, n *uintptr) int32 {
	if racing {
		reads(unsafe.Pointer(m), unsafe.Sizeof(*m))
		reads(unsafe.Pointer(header), unsafe.Sizeof(*header))
		status := text_write(m, header, buf, size, n)
		if status == statusOK {
			writes(unsafe.Pointer(buf), *n)
		}
		return status
	}
	return text_write(m, header, buf, size, n)
}

//go:noescape
func text_wire_len_layers(m *rtpw_map, header *rtpw_header, layers *rtpw_layers, n *uintptr) int32

func rtpw_wire_len_layers(m *rtpw_map, header *rtpw_header, layers *rtpw_layers, n *uintptr) int32 {
	if racing {
		reads(unsafe.Pointer(m), unsafe.Sizeof(*m))
		reads(unsafe.Pointer(header), unsafe.Sizeof(*header))
		reads(unsafe.Pointer(layers), unsafe.Sizeof(*layers))
	}
	return text_wire_len_layers(m, header, layers, n)
}

//go:noescape
func text_write_layers(m *rtpw_map, header *rtpw_header, layers *rtpw_layers, buf *byte, size uintptr, n *uintptr) int32

func rtpw_write_layers(m *rtpw_map, header *rtpw_header, layers *rtpw_layers, buf *byte, size uintptr, n *uintptr) int32 {
	if racing {
		reads(unsafe.Pointer(m), unsafe.Sizeof(*m))
		reads(unsafe.Pointer(header), unsafe.Sizeof(*header))
		reads(unsafe.Pointer(layers), unsafe.Sizeof(*layers))
		status := text_write_layers(m, header, layers, buf, size, n)
		if status == statusOK {
			writes(unsafe.Pointer(buf), *n)
		}
		return status
	}
	return text_write_layers(m, header, layers, buf, size, n)
}

//go:noescape
func text_left_out(m *rtpw_map, header *rtpw_header, kinds *uint32) int32

func rtpw_left_out(m *rtpw_map, header *rtpw_header, kinds *uint32) int32 {
	if racing {
		reads(unsafe.Pointer(m), unsafe.Sizeof(*m))
		reads(unsafe.Pointer(header), unsafe.Sizeof(*header))
		writes(unsafe.Pointer(kinds), unsafe.Sizeof(*kinds))
	}
	return text_left_out(m, header, kinds)
}

//go:noescape
func text_left_out_layers(m *rtpw_map, header *rtpw_header, layers *rtpw_layers, kinds *uint32) int32

func rtpw_left_out_layers(m *rtpw_map, header *rtpw_header, layers *rtpw_layers, kinds *uint32) int32 {
	if racing {
		reads(unsafe.Pointer(m), unsafe.Sizeof(*m))
		reads(unsafe.Pointer(header), unsafe.Sizeof(*header))
		reads(unsafe.Pointer(layers), unsafe.Sizeof(*layers))
		writes(unsafe.Pointer(kinds), unsafe.Sizeof(*kinds))
	}
	return text_left_out_layers(m, header, layers, kinds)
}

//go:noescape
func text_write_with_form(header *rtpw_header, data *byte, data_len uintptr, elements *rtpw_element, count uintptr, form byte, buf *byte, size uintptr, n *uintptr) int32

func rtpw_write_with_form(header *rtpw_header, data *byte, data_len uintptr, elements *rtpw_element, count uintptr, form byte, buf *byte, size uintptr, n *uintptr) int32 {
	if racing {
		reads(unsafe.Pointer(header), unsafe.Sizeof(*header))
		reads(unsafe.Pointer(data), data_len*unsafe.Sizeof(*data))
		reads(unsafe.Pointer(elements), count*unsafe.Sizeof(*elements))
		status := text_write_with_form(header, data, data_len, elements, count, form, buf, size, n)
		if status == statusOK {
			writes(unsafe.Pointer(buf), *n)
		}
		return status
	}
	return text_write_with_form(header, data, data_len, elements, count, form, buf, size, n)
}

//go:noescape
func text_write_elements(data *byte, data_len uintptr, elements *rtpw_element, count uintptr, form byte, buf *byte, size uintptr, n *uintptr) int32

func rtpw_write_elements(data *byte, data_len uintptr, elements *rtpw_element, count uintptr, form byte, buf *byte, size uintptr, n *uintptr) int32 {
	if racing {
		reads(unsafe.Pointer(data), data_len*unsafe.Sizeof(*data))
		reads(unsafe.Pointer(elements), count*unsafe.Sizeof(*elements))
		status := text_write_elements(data, data_len, elements, count, form, buf, size, n)
		if status == statusOK {
			writes(unsafe.Pointer(buf), *n)
		}
		return status
	}
	return text_write_elements(data, data_len, elements, count, form, buf, size, n)
}

//go:noescape
func text_read_send_time(data *byte, data_len uintptr, units *uint32) int32

func rtpw_read_send_time(data *byte, data_len uintptr, units *uint32) int32 {
	if racing {
		reads(unsafe.Pointer(data), data_len*unsafe.Sizeof(*data))
		writes(unsafe.Pointer(units), unsafe.Sizeof(*units))
	}
	return text_read_send_time(data, data_len, units)
}

//go:noescape
func text_write_send_time(units uint32, buf *byte, size uintptr, n *uintptr) int32

func rtpw_write_send_time(units uint32, buf *byte, size uintptr, n *uintptr) int32 {
	if racing {
		status := text_write_send_time(units, buf, size, n)
		if status == statusOK {
			writes(unsafe.Pointer(buf), *n)
		}
		return status
	}
	return text_write_send_time(units, buf, size, n)
}

//go:noescape
func text_extend_send_time(around uint64, units uint32) uint64

func rtpw_extend_send_time(around uint64, units uint32) uint64 {
	return text_extend_send_time(around, units)
}

//go:noescape
func text_read_transmission_offset(data *byte, data_len uintptr, offset *int32) int32

func rtpw_read_transmission_offset(data *byte, data_len uintptr, offset *int32) int32 {
	if racing {
		reads(unsafe.Pointer(data), data_len*unsafe.Sizeof(*data))
		writes(unsafe.Pointer(offset), unsafe.Sizeof(*offset))
	}
	return text_read_transmission_offset(data, data_len, offset)
}

//go:noescape
func text_write_transmission_offset(offset int32, buf *byte, size uintptr, n *uintptr) int32

func rtpw_write_transmission_offset(offset int32, buf *byte, size uintptr, n *uintptr) int32 {
	if racing {
		status := text_write_transmission_offset(offset, buf, size, n)
		if status == statusOK {
			writes(unsafe.Pointer(buf), *n)
		}
		return status
	}
	return text_write_transmission_offset(offset, buf, size, n)
}

//go:noescape
func text_read_frame_marking(data *byte, data_len uintptr, marking *rtpw_frame_marking) int32

func rtpw_read_frame_marking(data *byte, data_len uintptr, marking *rtpw_frame_marking) int32 {
	if racing {
		reads(unsafe.Pointer(data), data_len*unsafe.Sizeof(*data))
		writes(unsafe.Pointer(marking), unsafe.Sizeof(*marking))
	}
	return text_read_frame_marking(data, data_len, marking)
}

//go:noescape
func text_write_frame_marking(marking *rtpw_frame_marking, buf *byte, size uintptr, n *uintptr) int32

func rtpw_write_frame_marking(marking *rtpw_frame_marking, buf *byte, size uintptr, n *uintptr) int32 {
	if racing {
		reads(unsafe.Pointer(marking), unsafe.Sizeof(*marking))
		status := text_write_frame_marking(marking, buf, size, n)
		if status == statusOK {
			writes(unsafe.Pointer(buf), *n)
		}
		return status
	}
	return text_write_frame_marking(marking, buf, size, n)
}

//go:noescape
func text_read_orientation(data *byte, data_len uintptr, orientation *rtpw_orientation) int32

func rtpw_read_orientation(data *byte, data_len uintptr, orientation *rtpw_orientation) int32 {
	if racing {
		reads(unsafe.Pointer(data), data_len*unsafe.Sizeof(*data))
		writes(unsafe.Pointer(orientation), unsafe.Sizeof(*orientation))
	}
	return text_read_orientation(data, data_len, orientation)
}

//go:noescape
func text_write_orientation(orientation *rtpw_orientation, buf *byte, size uintptr, n *uintptr) int32

func rtpw_write_orientation(orientation *rtpw_orientation, buf *byte, size uintptr, n *uintptr) int32 {
	if racing {
		reads(unsafe.Pointer(orientation), unsafe.Sizeof(*orientation))
		status := text_write_orientation(orientation, buf, size, n)
		if status == statusOK {
			writes(unsafe.Pointer(buf), *n)
		}
		return status
	}
	return text_write_orientation(orientation, buf, size, n)
}

//go:noescape
func text_is_token(data *byte, data_len uintptr) bool

func rtpw_is_token(data *byte, data_len uintptr) bool {
	if racing {
		reads(unsafe.Pointer(data), data_len*unsafe.Sizeof(*data))
	}
	return text_is_token(data, data_len)
}

//go:noescape
func text_is_stream_id(data *byte, data_len uintptr) bool

func rtpw_is_stream_id(data *byte, data_len uintptr) bool {
	if racing {
		reads(unsafe.Pointer(data), data_len*unsafe.Sizeof(*data))
	}
	return text_is_stream_id(data, data_len)
}

//go:noescape
func text_read_timing(data *byte, data_len uintptr, timing *rtpw_timing) int32

func rtpw_read_timing(data *byte, data_len uintptr, timing *rtpw_timing) int32 {
	if racing {
		reads(unsafe.Pointer(data), data_len*unsafe.Sizeof(*data))
		writes(unsafe.Pointer(timing), unsafe.Sizeof(*timing))
	}
	return text_read_timing(data, data_len, timing)
}

//go:noescape
func text_write_timing(timing *rtpw_timing, buf *byte, size uintptr, n *uintptr) int32

func rtpw_write_timing(timing *rtpw_timing, buf *byte, size uintptr, n *uintptr) int32 {
	if racing {
		reads(unsafe.Pointer(timing), unsafe.Sizeof(*timing))
		status := text_write_timing(timing, buf, size, n)
		if status == statusOK {
			writes(unsafe.Pointer(buf), *n)
		}
		return status
	}
	return text_write_timing(timing, buf, size, n)
}

//go:noescape
func text_read_transport_number(data *byte, data_len uintptr, number *rtpw_transport_number) int32

func rtpw_read_transport_number(data *byte, data_len uintptr, number *rtpw_transport_number) int32 {
	if racing {
		reads(unsafe.Pointer(data), data_len*unsafe.Sizeof(*data))
		writes(unsafe.Pointer(number), unsafe.Sizeof(*number))
	}
	return text_read_transport_number(data, data_len, number)
}

//go:noescape
func text_write_transport_number(number *rtpw_transport_number, buf *byte, size uintptr, n *uintptr) int32

func rtpw_write_transport_number(number *rtpw_transport_number, buf *byte, size uintptr, n *uintptr) int32 {
	if racing {
		reads(unsafe.Pointer(number), unsafe.Sizeof(*number))
		status := text_write_transport_number(number, buf, size, n)
		if status == statusOK {
			writes(unsafe.Pointer(buf), *n)
		}
		return status
	}
	return text_write_transport_number(number, buf, size, n)
}

//go:noescape
func text_read_mixer_level(data *byte, data_len uintptr, csrc_count uintptr, index uintptr, level *int8) int32

func rtpw_read_mixer_level(data *byte, data_len uintptr, csrc_count uintptr, index uintptr, level *int8) int32 {
	if racing {
		reads(unsafe.Pointer(data), data_len*unsafe.Sizeof(*data))
		writes(unsafe.Pointer(level), unsafe.Sizeof(*level))
	}
	return text_read_mixer_level(data, data_len, csrc_count, index, level)
}

//go:noescape
func text_write_mixer_levels(levels *int8, count uintptr, buf *byte, size uintptr, n *uintptr) int32

func rtpw_write_mixer_levels(levels *int8, count uintptr, buf *byte, size uintptr, n *uintptr) int32 {
	if racing {
		reads(unsafe.Pointer(levels), count*unsafe.Sizeof(*levels))
		status := text_write_mixer_levels(levels, count, buf, size, n)
		if status == statusOK {
			writes(unsafe.Pointer(buf), *n)
		}
		return status
	}
	return text_write_mixer_levels(levels, count, buf, size, n)
}

//go:noescape
func text_read_ntp_64(data *byte, data_len uintptr, time *uint64) int32

func rtpw_read_ntp_64(data *byte, data_len uintptr, time *uint64) int32 {
	if racing {
		reads(unsafe.Pointer(data), data_len*unsafe.Sizeof(*data))
		writes(unsafe.Pointer(time), unsafe.Sizeof(*time))
	}
	return text_read_ntp_64(data, data_len, time)
}

//go:noescape
func text_write_ntp_64(time uint64, buf *byte, size uintptr, n *uintptr) int32

func rtpw_write_ntp_64(time uint64, buf *byte, size uintptr, n *uintptr) int32 {
	if racing {
		status := text_write_ntp_64(time, buf, size, n)
		if status == statusOK {
			writes(unsafe.Pointer(buf), *n)
		}
		return status
	}
	return text_write_ntp_64(time, buf, size, n)
}

//go:noescape
func text_read_ntp_56(data *byte, data_len uintptr, time *uint64) int32

func rtpw_read_ntp_56(data *byte, data_len uintptr, time *uint64) int32 {
	if racing {
		reads(unsafe.Pointer(data), data_len*unsafe.Sizeof(*data))
		writes(unsafe.Pointer(time), unsafe.Sizeof(*time))
	}
	return text_read_ntp_56(data, data_len, time)
}

//go:noescape
func text_write_ntp_56(time uint64, buf *byte, size uintptr, n *uintptr) int32

func rtpw_write_ntp_56(time uint64, buf *byte, size uintptr, n *uintptr) int32 {
	if racing {
		status := text_write_ntp_56(time, buf, size, n)
		if status == statusOK {
			writes(unsafe.Pointer(buf), *n)
		}
		return status
	}
	return text_write_ntp_56(time, buf, size, n)
}

//go:noescape
func text_extend_ntp_56(around uint64, low uint64) uint64

func rtpw_extend_ntp_56(around uint64, low uint64) uint64 {
	return text_extend_ntp_56(around, low)
}

//go:noescape
func text_read_color_space(data *byte, data_len uintptr, space *rtpw_color_space) int32

func rtpw_read_color_space(data *byte, data_len uintptr, space *rtpw_color_space) int32 {
	if racing {
		reads(unsafe.Pointer(data), data_len*unsafe.Sizeof(*data))
		writes(unsafe.Pointer(space), unsafe.Sizeof(*space))
	}
	return text_read_color_space(data, data_len, space)
}

//go:noescape
func text_write_color_space(space *rtpw_color_space, buf *byte, size uintptr, n *uintptr) int32

func rtpw_write_color_space(space *rtpw_color_space, buf *byte, size uintptr, n *uintptr) int32 {
	if racing {
		reads(unsafe.Pointer(space), unsafe.Sizeof(*space))
		status := text_write_color_space(space, buf, size, n)
		if status == statusOK {
			writes(unsafe.Pointer(buf), *n)
		}
		return status
	}
	return text_write_color_space(space, buf, size, n)
}

//go:noescape
func text_read_dependency_descriptor(data *byte, data_len uintptr, descriptor *rtpw_dependency_descriptor) int32

func rtpw_read_dependency_descriptor(data *byte, data_len uintptr, descriptor *rtpw_dependency_descriptor) int32 {
	if racing {
		reads(unsafe.Pointer(data), data_len*unsafe.Sizeof(*data))
		writes(unsafe.Pointer(descriptor), unsafe.Sizeof(*descriptor))
	}
	return text_read_dependency_descriptor(data, data_len, descriptor)
}

//go:noescape
func text_write_dependency_descriptor(descriptor *rtpw_dependency_descriptor, buf *byte, size uintptr, n *uintptr) int32

func rtpw_write_dependency_descriptor(descriptor *rtpw_dependency_descriptor, buf *byte, size uintptr, n *uintptr) int32 {
	if racing {
		reads(unsafe.Pointer(descriptor), unsafe.Sizeof(*descriptor))
		status := text_write_dependency_descriptor(descriptor, buf, size, n)
		if status == statusOK {
			writes(unsafe.Pointer(buf), *n)
		}
		return status
	}
	return text_write_dependency_descriptor(descriptor, buf, size, n)
}

//go:noescape
func text_has_structure(data *byte, data_len uintptr) bool

func rtpw_has_structure(data *byte, data_len uintptr) bool {
	if racing {
		reads(unsafe.Pointer(data), data_len*unsafe.Sizeof(*data))
	}
	return text_has_structure(data, data_len)
}

//go:noescape
func text_new_ids_between(from *rtpw_map, to *rtpw_map, ids *rtpw_new_ids)

func rtpw_new_ids_between(from *rtpw_map, to *rtpw_map, ids *rtpw_new_ids) {
	if racing {
		reads(unsafe.Pointer(from), unsafe.Sizeof(*from))
		reads(unsafe.Pointer(to), unsafe.Sizeof(*to))
		writes(unsafe.Pointer(ids), unsafe.Sizeof(*ids))
	}
	text_new_ids_between(from, to, ids)
}

//go:noescape
func text_renumber(datagram *byte, n uintptr, ids *rtpw_new_ids) int32

func rtpw_renumber(datagram *byte, n uintptr, ids *rtpw_new_ids) int32 {
	if racing {
		readsPacket(datagram, n)
		reads(unsafe.Pointer(ids), unsafe.Sizeof(*ids))
		status := text_renumber(datagram, n, ids)
		if status == statusOK {
			writesHeader(datagram, n)
		}
		return status
	}
	return text_renumber(datagram, n, ids)
}

//go:noescape
func text_pad(datagram *byte, size uintptr, header_len uintptr, pad_len byte, block_size uintptr, count *uintptr) int32

func rtpw_pad(datagram *byte, size uintptr, header_len uintptr, pad_len byte, block_size uintptr, count *uintptr) int32 {
	if racing {
		readsPacket(datagram, size)
		status := text_pad(datagram, size, header_len, pad_len, block_size, count)
		if status == statusOK {
			writes(unsafe.Add(unsafe.Pointer(datagram), header_len), *count)
			writesHeader(datagram, size)
		}
		return status
	}
	return text_pad(datagram, size, header_len, pad_len, block_size, count)
}

//go:noescape
func text_read_original(payload *byte, n uintptr, number *uint16) int32

func rtpw_read_original(payload *byte, n uintptr, number *uint16) int32 {
	if racing {
		reads(unsafe.Pointer(payload), least(n, 2))
		writes(unsafe.Pointer(number), unsafe.Sizeof(*number))
	}
	return text_read_original(payload, n, number)
}

//go:noescape
func text_write_original(payload *byte, size uintptr, number uint64) int32

func rtpw_write_original(payload *byte, size uintptr, number uint64) int32 {
	if racing {
		status := text_write_original(payload, size, number)
		if status == statusOK {
			writes(unsafe.Pointer(payload), 2)
		}
		return status
	}
	return text_write_original(payload, size, number)
}

//go:noescape
func text_new_ids_to_retransmission(m *rtpw_map, ids *rtpw_new_ids)

func rtpw_new_ids_to_retransmission(m *rtpw_map, ids *rtpw_new_ids) {
	if racing {
		reads(unsafe.Pointer(m), unsafe.Sizeof(*m))
		writes(unsafe.Pointer(ids), unsafe.Sizeof(*ids))
	}
	text_new_ids_to_retransmission(m, ids)
}

//go:noescape
func text_new_ids_from_retransmission(m *rtpw_map, ids *rtpw_new_ids)

func rtpw_new_ids_from_retransmission(m *rtpw_map, ids *rtpw_new_ids) {
	if racing {
		reads(unsafe.Pointer(m), unsafe.Sizeof(*m))
		writes(unsafe.Pointer(ids), unsafe.Sizeof(*ids))
	}
	text_new_ids_from_retransmission(m, ids)
}

//go:noescape
func text_to_retransmission(buf *byte, size uintptr, n *uintptr, ssrc uint32, payload_type byte, number uint16, ids *rtpw_new_ids) int32

func rtpw_to_retransmission(buf *byte, size uintptr, n *uintptr, ssrc uint32, payload_type byte, number uint16, ids *rtpw_new_ids) int32 {
	if racing {
		reads(unsafe.Pointer(buf), least(*n, size))
		reads(unsafe.Pointer(ids), unsafe.Sizeof(*ids))
		status := text_to_retransmission(buf, size, n, ssrc, payload_type, number, ids)
		if status == statusOK {
			writes(unsafe.Pointer(buf), *n)
		}
		return status
	}
	return text_to_retransmission(buf, size, n, ssrc, payload_type, number, ids)
}

//go:noescape
func text_from_retransmission(buf *byte, size uintptr, n *uintptr, ssrc uint32, payload_type byte, ids *rtpw_new_ids) int32

func rtpw_from_retransmission(buf *byte, size uintptr, n *uintptr, ssrc uint32, payload_type byte, ids *rtpw_new_ids) int32 {
	if racing {
		reads(unsafe.Pointer(buf), least(*n, size))
		reads(unsafe.Pointer(ids), unsafe.Sizeof(*ids))
		status := text_from_retransmission(buf, size, n, ssrc, payload_type, ids)
		if status == statusOK {
			writes(unsafe.Pointer(buf), *n)
		}
		return status
	}
	return text_from_retransmission(buf, size, n, ssrc, payload_type, ids)
}

//go:noescape
func text_receiver_start(receiver *rtpw_receiver, rollover_count uint64) int32

func rtpw_receiver_start(receiver *rtpw_receiver, rollover_count uint64) int32 {
	if racing {
		writes(unsafe.Pointer(receiver), unsafe.Sizeof(*receiver))
	}
	return text_receiver_start(receiver, rollover_count)
}

//go:noescape
func text_receiver_number_of(receiver *rtpw_receiver, sequence_number uint16) uint64

func rtpw_receiver_number_of(receiver *rtpw_receiver, sequence_number uint16) uint64 {
	if racing {
		reads(unsafe.Pointer(receiver), unsafe.Sizeof(*receiver))
	}
	return text_receiver_number_of(receiver, sequence_number)
}

//go:noescape
func text_receiver_accepts(receiver *rtpw_receiver, number uint64) bool

func rtpw_receiver_accepts(receiver *rtpw_receiver, number uint64) bool {
	if racing {
		reads(unsafe.Pointer(receiver), unsafe.Sizeof(*receiver))
	}
	return text_receiver_accepts(receiver, number)
}

//go:noescape
func text_receiver_record(receiver *rtpw_receiver, number uint64)

func rtpw_receiver_record(receiver *rtpw_receiver, number uint64) {
	if racing {
		writes(unsafe.Pointer(receiver), unsafe.Sizeof(*receiver))
	}
	text_receiver_record(receiver, number)
}

//go:noescape
func text_receiver_receive(receiver *rtpw_receiver, sequence_number uint16, number *uint64) int32

func rtpw_receiver_receive(receiver *rtpw_receiver, sequence_number uint16, number *uint64) int32 {
	if racing {
		writes(unsafe.Pointer(receiver), unsafe.Sizeof(*receiver))
		writes(unsafe.Pointer(number), unsafe.Sizeof(*number))
	}
	return text_receiver_receive(receiver, sequence_number, number)
}

//go:noescape
func text_receiver_standing_of(receiver *rtpw_receiver, number uint64) byte

func rtpw_receiver_standing_of(receiver *rtpw_receiver, number uint64) byte {
	if racing {
		reads(unsafe.Pointer(receiver), unsafe.Sizeof(*receiver))
	}
	return text_receiver_standing_of(receiver, number)
}

//go:noescape
func text_wide_receiver_start(receiver *rtpw_wide_receiver, rollover_count uint64) int32

func rtpw_wide_receiver_start(receiver *rtpw_wide_receiver, rollover_count uint64) int32 {
	if racing {
		writes(unsafe.Pointer(receiver), unsafe.Sizeof(*receiver))
	}
	return text_wide_receiver_start(receiver, rollover_count)
}

//go:noescape
func text_wide_receiver_number_of(receiver *rtpw_wide_receiver, sequence_number uint16) uint64

func rtpw_wide_receiver_number_of(receiver *rtpw_wide_receiver, sequence_number uint16) uint64 {
	if racing {
		reads(unsafe.Pointer(receiver), unsafe.Sizeof(*receiver))
	}
	return text_wide_receiver_number_of(receiver, sequence_number)
}

//go:noescape
func text_wide_receiver_accepts(receiver *rtpw_wide_receiver, words *uint64, count uintptr, number uint64) bool

func rtpw_wide_receiver_accepts(receiver *rtpw_wide_receiver, words *uint64, count uintptr, number uint64) bool {
	if racing {
		reads(unsafe.Pointer(receiver), unsafe.Sizeof(*receiver))
		reads(unsafe.Pointer(words), count*unsafe.Sizeof(*words))
	}
	return text_wide_receiver_accepts(receiver, words, count, number)
}

//go:noescape
func text_wide_receiver_record(receiver *rtpw_wide_receiver, words *uint64, count uintptr, number uint64) int32

func rtpw_wide_receiver_record(receiver *rtpw_wide_receiver, words *uint64, count uintptr, number uint64) int32 {
	if racing {
		writes(unsafe.Pointer(receiver), unsafe.Sizeof(*receiver))
		writes(unsafe.Pointer(words), count*unsafe.Sizeof(*words))
	}
	return text_wide_receiver_record(receiver, words, count, number)
}

//go:noescape
func text_wide_receiver_receive(receiver *rtpw_wide_receiver, words *uint64, count uintptr, sequence_number uint16, number *uint64) int32

func rtpw_wide_receiver_receive(receiver *rtpw_wide_receiver, words *uint64, count uintptr, sequence_number uint16, number *uint64) int32 {
	if racing {
		writes(unsafe.Pointer(receiver), unsafe.Sizeof(*receiver))
		writes(unsafe.Pointer(words), count*unsafe.Sizeof(*words))
		writes(unsafe.Pointer(number), unsafe.Sizeof(*number))
	}
	return text_wide_receiver_receive(receiver, words, count, sequence_number, number)
}

//go:noescape
func text_wide_receiver_standing_of(receiver *rtpw_wide_receiver, words *uint64, count uintptr, number uint64) byte

func rtpw_wide_receiver_standing_of(receiver *rtpw_wide_receiver, words *uint64, count uintptr, number uint64) byte {
	if racing {
		reads(unsafe.Pointer(receiver), unsafe.Sizeof(*receiver))
		reads(unsafe.Pointer(words), count*unsafe.Sizeof(*words))
	}
	return text_wide_receiver_standing_of(receiver, words, count, number)
}

//go:noescape
func text_reception_record(reception *rtpw_reception, number uint64, timestamp uint32, arrival uint32)

func rtpw_reception_record(reception *rtpw_reception, number uint64, timestamp uint32, arrival uint32) {
	if racing {
		writes(unsafe.Pointer(reception), unsafe.Sizeof(*reception))
	}
	text_reception_record(reception, number, timestamp, arrival)
}

//go:noescape
func text_reception_report(reception *rtpw_reception, report *rtpw_report) int32

func rtpw_reception_report(reception *rtpw_reception, report *rtpw_report) int32 {
	if racing {
		writes(unsafe.Pointer(reception), unsafe.Sizeof(*reception))
		writes(unsafe.Pointer(report), unsafe.Sizeof(*report))
	}
	return text_reception_report(reception, report)
}

//go:noescape
func text_write_report(report *rtpw_report, ssrc uint32, last_report uint32, delay uint32, buf *byte, size uintptr, n *uintptr) int32

func rtpw_write_report(report *rtpw_report, ssrc uint32, last_report uint32, delay uint32, buf *byte, size uintptr, n *uintptr) int32 {
	if racing {
		reads(unsafe.Pointer(report), unsafe.Sizeof(*report))
		status := text_write_report(report, ssrc, last_report, delay, buf, size, n)
		if status == statusOK {
			writes(unsafe.Pointer(buf), *n)
		}
		return status
	}
	return text_write_report(report, ssrc, last_report, delay, buf, size, n)
}

//go:noescape
func text_wide_restarting_receive(receiver *rtpw_wide_restarting_receiver, words *uint64, count uintptr, sequence_number uint16, number *uint64) int32

func rtpw_wide_restarting_receive(receiver *rtpw_wide_restarting_receiver, words *uint64, count uintptr, sequence_number uint16, number *uint64) int32 {
	if racing {
		writes(unsafe.Pointer(receiver), unsafe.Sizeof(*receiver))
		writes(unsafe.Pointer(words), count*unsafe.Sizeof(*words))
		writes(unsafe.Pointer(number), unsafe.Sizeof(*number))
	}
	return text_wide_restarting_receive(receiver, words, count, sequence_number, number)
}

//go:noescape
func text_extend_u8(previous uint64, number byte) uint64

func rtpw_extend_u8(previous uint64, number byte) uint64 {
	return text_extend_u8(previous, number)
}

//go:noescape
func text_extend_u15(previous uint64, number uint16) uint64

func rtpw_extend_u15(previous uint64, number uint16) uint64 {
	return text_extend_u15(previous, number)
}

//go:noescape
func text_extend_u16(previous uint64, number uint16) uint64

func rtpw_extend_u16(previous uint64, number uint16) uint64 {
	return text_extend_u16(previous, number)
}

//go:noescape
func text_extend_u32(previous uint64, number uint32) uint64

func rtpw_extend_u32(previous uint64, number uint32) uint64 {
	return text_extend_u32(previous, number)
}

//go:noescape
func text_packet_parse_many(buf *byte, size uintptr, datagrams *rtpw_datagram, count uintptr)

func rtpw_packet_parse_many(buf *byte, size uintptr, datagrams *rtpw_datagram, count uintptr) {
	if racing {
		readsDatagrams(buf, size, datagrams, count)
		writes(unsafe.Pointer(datagrams), count*unsafe.Sizeof(*datagrams))
	}
	text_packet_parse_many(buf, size, datagrams, count)
}

//go:noescape
func text_parse_many(buf *byte, size uintptr, m *rtpw_map, datagrams *rtpw_datagram_header, count uintptr)

func rtpw_parse_many(buf *byte, size uintptr, m *rtpw_map, datagrams *rtpw_datagram_header, count uintptr) {
	if racing {
		readsDatagramHeaders(buf, size, datagrams, count)
		reads(unsafe.Pointer(m), unsafe.Sizeof(*m))
		writes(unsafe.Pointer(datagrams), count*unsafe.Sizeof(*datagrams))
	}
	text_parse_many(buf, size, m, datagrams, count)
}

//go:noescape
func text_receive_many(receivers *rtpw_receiver, receiver_count uintptr, arrivals *rtpw_arrival, count uintptr)

func rtpw_receive_many(receivers *rtpw_receiver, receiver_count uintptr, arrivals *rtpw_arrival, count uintptr) {
	if racing {
		writesReceivers(receivers, receiver_count, arrivals, count)
		writes(unsafe.Pointer(arrivals), count*unsafe.Sizeof(*arrivals))
	}
	text_receive_many(receivers, receiver_count, arrivals, count)
}

//go:noescape
func text_make_template(datagram *byte, n uintptr, ids *rtpw_new_ids, data *byte, data_len uintptr, elements *rtpw_element, count uintptr, allowed byte, buf *byte, size uintptr, made *rtpw_template) int32

func rtpw_make_template(datagram *byte, n uintptr, ids *rtpw_new_ids, data *byte, data_len uintptr, elements *rtpw_element, count uintptr, allowed byte, buf *byte, size uintptr, made *rtpw_template) int32 {
	if racing {
		readsPacket(datagram, n)
		reads(unsafe.Pointer(ids), unsafe.Sizeof(*ids))
		reads(unsafe.Pointer(data), data_len*unsafe.Sizeof(*data))
		reads(unsafe.Pointer(elements), count*unsafe.Sizeof(*elements))
		writes(unsafe.Pointer(made), unsafe.Sizeof(*made))
		status := text_make_template(datagram, n, ids, data, data_len, elements, count, allowed, buf, size, made)
		if status == statusOK {
			writes(unsafe.Pointer(buf), uintptr(made.header_len))
		}
		return status
	}
	return text_make_template(datagram, n, ids, data, data_len, elements, count, allowed, buf, size, made)
}

//go:noescape
func text_prepare_group(ids *rtpw_new_ids, elements *rtpw_element, count uintptr, allowed byte, group *rtpw_group) int32

func rtpw_prepare_group(ids *rtpw_new_ids, elements *rtpw_element, count uintptr, allowed byte, group *rtpw_group) int32 {
	if racing {
		reads(unsafe.Pointer(ids), unsafe.Sizeof(*ids))
		reads(unsafe.Pointer(elements), count*unsafe.Sizeof(*elements))
		writes(unsafe.Pointer(group), unsafe.Sizeof(*group))
	}
	return text_prepare_group(ids, elements, count, allowed, group)
}

//go:noescape
func text_make_from_group(group *rtpw_group, datagram *byte, n uintptr, buf *byte, size uintptr, made *rtpw_template) int32

func rtpw_make_from_group(group *rtpw_group, datagram *byte, n uintptr, buf *byte, size uintptr, made *rtpw_template) int32 {
	if racing {
		reads(unsafe.Pointer(group), unsafe.Sizeof(*group))
		readsPacket(datagram, n)
		writes(unsafe.Pointer(made), unsafe.Sizeof(*made))
		status := text_make_from_group(group, datagram, n, buf, size, made)
		if status == statusOK {
			writes(unsafe.Pointer(buf), uintptr(made.header_len))
		}
		return status
	}
	return text_make_from_group(group, datagram, n, buf, size, made)
}

//go:noescape
func text_write_headers(made *rtpw_template, header *byte, header_size uintptr, data *byte, data_len uintptr, receivers *rtpw_routed_header, count uintptr, buf *byte, size uintptr) int32

func rtpw_write_headers(made *rtpw_template, header *byte, header_size uintptr, data *byte, data_len uintptr, receivers *rtpw_routed_header, count uintptr, buf *byte, size uintptr) int32 {
	if racing {
		reads(unsafe.Pointer(made), unsafe.Sizeof(*made))
		reads(unsafe.Pointer(header), header_size*unsafe.Sizeof(*header))
		reads(unsafe.Pointer(data), data_len*unsafe.Sizeof(*data))
		writes(unsafe.Pointer(receivers), count*unsafe.Sizeof(*receivers))
		status := text_write_headers(made, header, header_size, data, data_len, receivers, count, buf, size)
		if status == statusOK {
			writes(unsafe.Pointer(buf), endOf(receivers, count))
		}
		return status
	}
	return text_write_headers(made, header, header_size, data, data_len, receivers, count, buf, size)
}

//go:noescape
func text_read_fixed_part(datagram *byte, n uintptr, fixed *rtpw_fixed_part, layout *rtpw_layout) int32

func rtpw_read_fixed_part(datagram *byte, n uintptr, fixed *rtpw_fixed_part, layout *rtpw_layout) int32 {
	if racing {
		readsPacket(datagram, n)
		writes(unsafe.Pointer(fixed), unsafe.Sizeof(*fixed))
		writes(unsafe.Pointer(layout), unsafe.Sizeof(*layout))
	}
	return text_read_fixed_part(datagram, n, fixed, layout)
}

//go:noescape
func text_write_fixed_part(fixed *rtpw_fixed_part, buf *byte, size uintptr) int32

func rtpw_write_fixed_part(fixed *rtpw_fixed_part, buf *byte, size uintptr) int32 {
	if racing {
		reads(unsafe.Pointer(fixed), unsafe.Sizeof(*fixed))
		status := text_write_fixed_part(fixed, buf, size)
		if status == statusOK {
			writes(unsafe.Pointer(buf), 12)
		}
		return status
	}
	return text_write_fixed_part(fixed, buf, size)
}

//go:noescape
func text_write_data_elements(fixed *rtpw_fixed_part, elements *rtpw_data_element, count uintptr, form byte, buf *byte, size uintptr, n *uintptr) int32

func rtpw_write_data_elements(fixed *rtpw_fixed_part, elements *rtpw_data_element, count uintptr, form byte, buf *byte, size uintptr, n *uintptr) int32 {
	if racing {
		readsDataElements(elements, count)
		reads(unsafe.Pointer(fixed), unsafe.Sizeof(*fixed))
		status := text_write_data_elements(fixed, elements, count, form, buf, size, n)
		if status == statusOK {
			writes(unsafe.Pointer(buf), *n)
		}
		return status
	}
	return text_write_data_elements(fixed, elements, count, form, buf, size, n)
}

//go:noescape
func text_packet_read(datagram *byte, n uintptr, m *rtpw_map, packet *rtpw_packet, values *rtpw_values) int32

func rtpw_packet_read(datagram *byte, n uintptr, m *rtpw_map, packet *rtpw_packet, values *rtpw_values) int32 {
	if racing {
		readsPacket(datagram, n)
		reads(unsafe.Pointer(m), unsafe.Sizeof(*m))
		writes(unsafe.Pointer(packet), unsafe.Sizeof(*packet))
		writes(unsafe.Pointer(values), unsafe.Sizeof(*values))
	}
	return text_packet_read(datagram, n, m, packet, values)
}

//go:noescape
func text_packet_read_muxed(datagram *byte, n uintptr, m *rtpw_map, packet *rtpw_packet, values *rtpw_values) int32

func rtpw_packet_read_muxed(datagram *byte, n uintptr, m *rtpw_map, packet *rtpw_packet, values *rtpw_values) int32 {
	if racing {
		readsPacket(datagram, n)
		reads(unsafe.Pointer(m), unsafe.Sizeof(*m))
		writes(unsafe.Pointer(packet), unsafe.Sizeof(*packet))
		writes(unsafe.Pointer(values), unsafe.Sizeof(*values))
	}
	return text_packet_read_muxed(datagram, n, m, packet, values)
}

// The functions with types of Go.

func (it *PacketFields) c() *rtpw_packet {
	return (*rtpw_packet)(unsafe.Pointer(it))
}

func (it *Fields) c() *rtpw_fields {
	return (*rtpw_fields)(unsafe.Pointer(it))
}

func (it *Place) c() *rtpw_element {
	return (*rtpw_element)(unsafe.Pointer(it))
}

func (it *Map) c() *rtpw_map {
	_ = *it // nil ends here
	return (*rtpw_map)(unsafe.Pointer(it))
}

func (it *ReadValues) c() *rtpw_values {
	return (*rtpw_values)(unsafe.Pointer(it))
}

func (it *wholePacket) c() *rtpw_whole_packet {
	_ = *it // nil ends here
	return (*rtpw_whole_packet)(unsafe.Pointer(it))
}

func (it *Header) c() *rtpw_header {
	_ = *it // nil ends here
	return (*rtpw_header)(unsafe.Pointer(it))
}

func (it *Layers) c() *rtpw_layers {
	_ = *it // nil ends here
	return (*rtpw_layers)(unsafe.Pointer(it))
}

func (it *FrameMarking) c() *rtpw_frame_marking {
	return (*rtpw_frame_marking)(unsafe.Pointer(it))
}

func (it *Orientation) c() *rtpw_orientation {
	return (*rtpw_orientation)(unsafe.Pointer(it))
}

func (it *Timing) c() *rtpw_timing {
	return (*rtpw_timing)(unsafe.Pointer(it))
}

func (it *TransportNumber) c() *rtpw_transport_number {
	return (*rtpw_transport_number)(unsafe.Pointer(it))
}

func (it *ColorSpace) c() *rtpw_color_space {
	return (*rtpw_color_space)(unsafe.Pointer(it))
}

func (it *DependencyDescriptor) c() *rtpw_dependency_descriptor {
	return (*rtpw_dependency_descriptor)(unsafe.Pointer(it))
}

func (it *NewIDs) c() *rtpw_new_ids {
	_ = *it // nil ends here
	return (*rtpw_new_ids)(unsafe.Pointer(it))
}

func (it *Receiver) c() *rtpw_receiver {
	_ = *it // nil ends here
	return (*rtpw_receiver)(unsafe.Pointer(it))
}

func (it *wideState) c() *rtpw_wide_receiver {
	return (*rtpw_wide_receiver)(unsafe.Pointer(it))
}

func (it *ReceptionStatistics) c() *rtpw_reception {
	return (*rtpw_reception)(unsafe.Pointer(it))
}

func (it *ReceptionReport) c() *rtpw_report {
	return (*rtpw_report)(unsafe.Pointer(it))
}

func (it *template) c() *rtpw_template {
	return (*rtpw_template)(unsafe.Pointer(it))
}

func (it *PreparedGroup) c() *rtpw_group {
	return (*rtpw_group)(unsafe.Pointer(it))
}

func (it *FixedPart) c() *rtpw_fixed_part {
	return (*rtpw_fixed_part)(unsafe.Pointer(it))
}

func (it *Layout) c() *rtpw_layout {
	return (*rtpw_layout)(unsafe.Pointer(it))
}

func first(values []byte) *byte {
	return (*byte)(unsafe.Pointer((*[0]byte)(values)))
}

func firstElement(values []Place) *rtpw_element {
	return (*rtpw_element)(unsafe.Pointer((*[0]Place)(values)))
}

func firstInt8(values []int8) *int8 {
	return (*int8)(unsafe.Pointer((*[0]int8)(values)))
}

func firstUint64(values []uint64) *uint64 {
	return (*uint64)(unsafe.Pointer((*[0]uint64)(values)))
}

func firstDatagram(values []datagram) *rtpw_datagram {
	return (*rtpw_datagram)(unsafe.Pointer((*[0]datagram)(values)))
}

func firstDatagramHeader(values []datagramHeader) *rtpw_datagram_header {
	return (*rtpw_datagram_header)(unsafe.Pointer((*[0]datagramHeader)(values)))
}

func firstReceiver(values []Receiver) *rtpw_receiver {
	return (*rtpw_receiver)(unsafe.Pointer((*[0]Receiver)(values)))
}

func firstArrival(values []arrival) *rtpw_arrival {
	return (*rtpw_arrival)(unsafe.Pointer((*[0]arrival)(values)))
}

func firstRoutedHeader(values []routedHeader) *rtpw_routed_header {
	return (*rtpw_routed_header)(unsafe.Pointer((*[0]routedHeader)(values)))
}

func firstDataElement(values []DataElement) *rtpw_data_element {
	return (*rtpw_data_element)(unsafe.Pointer((*[0]DataElement)(values)))
}

func version() uint32 {
	return rtpw_version()
}

func isRTCP(datagram []byte) bool {
	return rtpw_is_rtcp(first(datagram), uintptr(len(datagram)))
}

func packetParse(datagram []byte, packet *PacketFields) int32 {
	return rtpw_packet_parse(first(datagram), uintptr(len(datagram)), packet.c())
}

func setPayloadType(datagram []byte, payloadType uint8) int32 {
	return rtpw_set_payload_type(first(datagram), uintptr(len(datagram)), payloadType)
}

func setFields(datagram []byte, fields *Fields) error {
	return errorOf(rtpw_set_fields(first(datagram), uintptr(len(datagram)), fields.c()))
}

func setCSRC(datagram []byte, index int, source uint32) error {
	return errorOf(rtpw_set_csrc(first(datagram), uintptr(len(datagram)), uintptr(index), source))
}

func setElement(datagram []byte, id uint8, data []byte) error {
	data = apart(data, datagram)
	return errorOf(rtpw_set_element(first(datagram), uintptr(len(datagram)), id, first(data), uintptr(len(data))))
}

func removeElement(datagram []byte, id uint8) error {
	return errorOf(rtpw_remove_element(first(datagram), uintptr(len(datagram)), id))
}

func setPadding(datagram []byte, hasPadding bool) error {
	return errorOf(rtpw_set_padding(first(datagram), uintptr(len(datagram)), hasPadding))
}

func removePadding(datagram []byte) ([]byte, error) {
	var newLen uintptr
	status := rtpw_remove_padding(first(datagram), uintptr(len(datagram)), &newLen)
	return upTo(datagram, newLen, status)
}

func putElement(buf []byte, length int, id uint8, data []byte, allowed Forms) ([]byte, error) {
	data = apart(data, buf)
	n := uintptr(length)
	status := rtpw_put_element(first(buf), uintptr(len(buf)), &n, id, first(data), uintptr(len(data)), uint8(allowed))
	return upTo(buf, n, status)
}

func addElement(buf []byte, length int, id uint8, data []byte, allowed Forms) ([]byte, error) {
	data = apart(data, buf)
	n := uintptr(length)
	status := rtpw_add_element(first(buf), uintptr(len(buf)), &n, id, first(data), uintptr(len(data)), uint8(allowed))
	return upTo(buf, n, status)
}

func compact(buf []byte, length int) ([]byte, error) {
	n := uintptr(length)
	status := rtpw_compact(first(buf), uintptr(len(buf)), &n)
	return upTo(buf, n, status)
}

func changeForm(buf []byte, length int, form Form) ([]byte, error) {
	n := uintptr(length)
	status := rtpw_change_form(first(buf), uintptr(len(buf)), &n, uint8(form))
	return upTo(buf, n, status)
}

func removeBlock(buf []byte, length int) ([]byte, error) {
	n := uintptr(length)
	status := rtpw_remove_block(first(buf), uintptr(len(buf)), &n)
	return upTo(buf, n, status)
}

func putBlock(buf []byte, length int, profile uint16, body []byte) ([]byte, error) {
	body = apart(body, buf)
	n := uintptr(length)
	status := rtpw_put_block(first(buf), uintptr(len(buf)), &n, profile, first(body), uintptr(len(body)))
	return upTo(buf, n, status)
}

func nextElement(body []byte, form Form, at int, element *Place) int32 {
	return rtpw_next_element(first(body), uintptr(len(body)), uint8(form), uintptr(at), element.c())
}

func lastElement(body []byte, form Form, id uint8) (Place, error) {
	var element Place
	status := rtpw_last_element(first(body), uintptr(len(body)), uint8(form), id, element.c())
	return element, errorOf(status)
}

func kindOfURI(uri []byte) uint8 {
	return rtpw_kind_of_uri(first(uri), uintptr(len(uri)))
}

func uriOfKind(kind Kind, buf []byte) (int, error) {
	var n uintptr
	status := rtpw_uri_of_kind(uint8(kind), first(buf), uintptr(len(buf)), &n)
	return int(n), errorOf(status)
}

func mapSet(m *Map, id uint8, kind Kind) error {
	return errorOf(rtpw_map_set(m.c(), id, uint8(kind)))
}

func idOf(m *Map, kind Kind) uint8 {
	return rtpw_id_of(m.orNone().c(), uint8(kind))
}

func mapStandard(m *Map) {
	rtpw_map_standard(m.c())
}

func valuesRead(body []byte, form Form, m *Map, values *ReadValues) int32 {
	return rtpw_values_read(first(body), uintptr(len(body)), uint8(form), m.orNone().c(), values.c())
}

func dataOf(kind Kind, values *ReadValues, buf []byte) (int, error) {
	var n uintptr
	status := rtpw_data_of(uint8(kind), values.c(), first(buf), uintptr(len(buf)), &n)
	return int(n), errorOf(status)
}

func read(datagram []byte, m *Map, packet *wholePacket) int32 {
	return rtpw_read(first(datagram), uintptr(len(datagram)), m.orNone().c(), packet.c())
}

func parse(datagram []byte, m *Map, header *Header) int32 {
	return rtpw_parse(first(datagram), uintptr(len(datagram)), m.orNone().c(), header.c())
}

func parseLayers(datagram []byte, m *Map, header *Header, layers *Layers) int32 {
	return rtpw_parse_layers(first(datagram), uintptr(len(datagram)), m.orNone().c(), header.c(), layers.c())
}

func wireLen(m *Map, header *Header) (int, error) {
	var n uintptr
	status := rtpw_wire_len(m.orNone().c(), header.c(), &n)
	return int(n), errorOf(status)
}

func write(m *Map, header *Header, buf []byte) (int, error) {
	var n uintptr
	status := rtpw_write(m.orNone().c(), header.c(), first(buf), uintptr(len(buf)), &n)
	return int(n), errorOf(status)
}

func wireLenLayers(m *Map, header *Header, layers *Layers) (int, error) {
	var n uintptr
	status := rtpw_wire_len_layers(m.orNone().c(), header.c(), layers.c(), &n)
	return int(n), errorOf(status)
}

func writeLayers(m *Map, header *Header, layers *Layers, buf []byte) (int, error) {
	var n uintptr
	status := rtpw_write_layers(m.orNone().c(), header.c(), layers.c(), first(buf), uintptr(len(buf)), &n)
	return int(n), errorOf(status)
}

func leftOut(m *Map, header *Header) (uint32, error) {
	var kinds uint32
	status := rtpw_left_out(m.orNone().c(), header.c(), &kinds)
	return kinds, errorOf(status)
}

func leftOutLayers(m *Map, header *Header, layers *Layers) (uint32, error) {
	var kinds uint32
	status := rtpw_left_out_layers(m.orNone().c(), header.c(), layers.c(), &kinds)
	return kinds, errorOf(status)
}

func writeWithForm(header *Header, data []byte, elements []Place, form Form, buf []byte) (int, error) {
	data = apart(data, buf)
	var n uintptr
	status := rtpw_write_with_form(header.c(), first(data), uintptr(len(data)), firstElement(elements), uintptr(len(elements)), uint8(form), first(buf), uintptr(len(buf)), &n)
	return int(n), errorOf(status)
}

func writeElements(data []byte, elements []Place, form Form, buf []byte) (int, error) {
	data = apart(data, buf)
	var n uintptr
	status := rtpw_write_elements(first(data), uintptr(len(data)), firstElement(elements), uintptr(len(elements)), uint8(form), first(buf), uintptr(len(buf)), &n)
	return int(n), errorOf(status)
}

func readSendTime(data []byte) (uint32, error) {
	var units uint32
	status := rtpw_read_send_time(first(data), uintptr(len(data)), &units)
	return units, errorOf(status)
}

func appendSendTime(data []byte, units uint32) ([]byte, error) {
	var it written
	status := rtpw_write_send_time(units, &it.data[0], uintptr(len(it.data)), &it.n)
	return it.after(data, status)
}

func extendSendTime(around uint64, units uint32) uint64 {
	return rtpw_extend_send_time(around, units)
}

func readTransmissionOffset(data []byte) (int32, error) {
	var offset int32
	status := rtpw_read_transmission_offset(first(data), uintptr(len(data)), &offset)
	return offset, errorOf(status)
}

func appendTransmissionOffset(data []byte, offset int32) ([]byte, error) {
	var it written
	status := rtpw_write_transmission_offset(offset, &it.data[0], uintptr(len(it.data)), &it.n)
	return it.after(data, status)
}

func readFrameMarking(data []byte) (FrameMarking, error) {
	var marking FrameMarking
	status := rtpw_read_frame_marking(first(data), uintptr(len(data)), marking.c())
	return marking, errorOf(status)
}

func appendFrameMarking(data []byte, marking *FrameMarking) ([]byte, error) {
	var it written
	status := rtpw_write_frame_marking(marking.c(), &it.data[0], uintptr(len(it.data)), &it.n)
	return it.after(data, status)
}

func readOrientation(data []byte) (Orientation, error) {
	var orientation Orientation
	status := rtpw_read_orientation(first(data), uintptr(len(data)), orientation.c())
	return orientation, errorOf(status)
}

func appendOrientation(data []byte, orientation *Orientation) ([]byte, error) {
	var it written
	status := rtpw_write_orientation(orientation.c(), &it.data[0], uintptr(len(it.data)), &it.n)
	return it.after(data, status)
}

func isToken(data []byte) bool {
	return rtpw_is_token(first(data), uintptr(len(data)))
}

func isStreamID(data []byte) bool {
	return rtpw_is_stream_id(first(data), uintptr(len(data)))
}

func readTiming(data []byte) (Timing, error) {
	var timing Timing
	status := rtpw_read_timing(first(data), uintptr(len(data)), timing.c())
	return timing, errorOf(status)
}

func appendTiming(data []byte, timing *Timing) ([]byte, error) {
	var it written
	status := rtpw_write_timing(timing.c(), &it.data[0], uintptr(len(it.data)), &it.n)
	return it.after(data, status)
}

func readTransportNumber(data []byte) (TransportNumber, error) {
	var number TransportNumber
	status := rtpw_read_transport_number(first(data), uintptr(len(data)), number.c())
	return number, errorOf(status)
}

func appendTransportNumber(data []byte, number *TransportNumber) ([]byte, error) {
	var it written
	status := rtpw_write_transport_number(number.c(), &it.data[0], uintptr(len(it.data)), &it.n)
	return it.after(data, status)
}

func readMixerLevel(data []byte, csrcCount int, index int) (int8, error) {
	var level int8
	status := rtpw_read_mixer_level(first(data), uintptr(len(data)), uintptr(csrcCount), uintptr(index), &level)
	return level, errorOf(status)
}

func writeMixerLevels(levels []int8, buf []byte) (int, error) {
	var n uintptr
	status := rtpw_write_mixer_levels(firstInt8(levels), uintptr(len(levels)), first(buf), uintptr(len(buf)), &n)
	return int(n), errorOf(status)
}

func readNTP64(data []byte) (uint64, error) {
	var time uint64
	status := rtpw_read_ntp_64(first(data), uintptr(len(data)), &time)
	return time, errorOf(status)
}

func appendNTP64(data []byte, time uint64) ([]byte, error) {
	var it written
	status := rtpw_write_ntp_64(time, &it.data[0], uintptr(len(it.data)), &it.n)
	return it.after(data, status)
}

func readNTP56(data []byte) (uint64, error) {
	var time uint64
	status := rtpw_read_ntp_56(first(data), uintptr(len(data)), &time)
	return time, errorOf(status)
}

func appendNTP56(data []byte, time uint64) ([]byte, error) {
	var it written
	status := rtpw_write_ntp_56(time, &it.data[0], uintptr(len(it.data)), &it.n)
	return it.after(data, status)
}

func extendNTP56(around uint64, low uint64) uint64 {
	return rtpw_extend_ntp_56(around, low)
}

func readColorSpace(data []byte) (ColorSpace, error) {
	var space ColorSpace
	status := rtpw_read_color_space(first(data), uintptr(len(data)), space.c())
	return space, errorOf(status)
}

func appendColorSpace(data []byte, space *ColorSpace) ([]byte, error) {
	var it written
	status := rtpw_write_color_space(space.c(), &it.data[0], uintptr(len(it.data)), &it.n)
	return it.after(data, status)
}

func readDependencyDescriptor(data []byte) (DependencyDescriptor, error) {
	var descriptor DependencyDescriptor
	status := rtpw_read_dependency_descriptor(first(data), uintptr(len(data)), descriptor.c())
	return descriptor, errorOf(status)
}

func appendDependencyDescriptor(data []byte, descriptor *DependencyDescriptor) ([]byte, error) {
	var it written
	status := rtpw_write_dependency_descriptor(descriptor.c(), &it.data[0], uintptr(len(it.data)), &it.n)
	return it.after(data, status)
}

func hasStructure(data []byte) bool {
	return rtpw_has_structure(first(data), uintptr(len(data)))
}

func newIDsBetween(from *Map, to *Map, ids *NewIDs) {
	rtpw_new_ids_between(from.orNone().c(), to.orNone().c(), ids.c())
}

func renumber(datagram []byte, ids *NewIDs) error {
	return errorOf(rtpw_renumber(first(datagram), uintptr(len(datagram)), ids.c()))
}

func pad(datagram []byte, headerLen int, padLen uint8, blockSize int) (int, error) {
	var count uintptr
	status := rtpw_pad(first(datagram), uintptr(len(datagram)), uintptr(headerLen), padLen, uintptr(blockSize), &count)
	return int(count), errorOf(status)
}

func readOriginal(payload []byte) (uint16, error) {
	var number uint16
	status := rtpw_read_original(first(payload), uintptr(len(payload)), &number)
	return number, errorOf(status)
}

func writeOriginal(payload []byte, number uint64) error {
	return errorOf(rtpw_write_original(first(payload), uintptr(len(payload)), number))
}

func newIDsToRetransmission(m *Map, ids *NewIDs) {
	rtpw_new_ids_to_retransmission(m.orNone().c(), ids.c())
}

func newIDsFromRetransmission(m *Map, ids *NewIDs) {
	rtpw_new_ids_from_retransmission(m.orNone().c(), ids.c())
}

func toRetransmission(buf []byte, length int, ssrc uint32, payloadType uint8, number uint16, ids *NewIDs) ([]byte, error) {
	n := uintptr(length)
	status := rtpw_to_retransmission(first(buf), uintptr(len(buf)), &n, ssrc, payloadType, number, ids.c())
	return upTo(buf, n, status)
}

func fromRetransmission(buf []byte, length int, ssrc uint32, payloadType uint8, ids *NewIDs) ([]byte, error) {
	n := uintptr(length)
	status := rtpw_from_retransmission(first(buf), uintptr(len(buf)), &n, ssrc, payloadType, ids.c())
	return upTo(buf, n, status)
}

func receiverStart(receiver *Receiver, rolloverCount uint64) error {
	return errorOf(rtpw_receiver_start(receiver.c(), rolloverCount))
}

func receiverNumberOf(receiver *Receiver, sequenceNumber uint16) uint64 {
	return rtpw_receiver_number_of(receiver.c(), sequenceNumber)
}

func receiverAccepts(receiver *Receiver, number uint64) bool {
	return rtpw_receiver_accepts(receiver.c(), number)
}

func receiverRecord(receiver *Receiver, number uint64) {
	rtpw_receiver_record(receiver.c(), number)
}

func receiverReceive(receiver *Receiver, sequenceNumber uint16) (uint64, error) {
	var number uint64
	status := rtpw_receiver_receive(receiver.c(), sequenceNumber, &number)
	return number, errorOf(status)
}

func receiverStandingOf(receiver *Receiver, number uint64) uint8 {
	return rtpw_receiver_standing_of(receiver.c(), number)
}

func wideReceiverStart(receiver *wideState, rolloverCount uint64) error {
	return errorOf(rtpw_wide_receiver_start(receiver.c(), rolloverCount))
}

func wideReceiverNumberOf(receiver *wideState, sequenceNumber uint16) uint64 {
	return rtpw_wide_receiver_number_of(receiver.c(), sequenceNumber)
}

func wideReceiverAccepts(receiver *wideState, words []uint64, number uint64) bool {
	return rtpw_wide_receiver_accepts(receiver.c(), firstUint64(words), uintptr(len(words)), number)
}

func wideReceiverRecord(receiver *wideState, words []uint64, number uint64) error {
	return errorOf(rtpw_wide_receiver_record(receiver.c(), firstUint64(words), uintptr(len(words)), number))
}

func wideReceiverReceive(receiver *wideState, words []uint64, sequenceNumber uint16) (uint64, error) {
	var number uint64
	status := rtpw_wide_receiver_receive(receiver.c(), firstUint64(words), uintptr(len(words)), sequenceNumber, &number)
	return number, errorOf(status)
}

func wideReceiverStandingOf(receiver *wideState, words []uint64, number uint64) uint8 {
	return rtpw_wide_receiver_standing_of(receiver.c(), firstUint64(words), uintptr(len(words)), number)
}

func receptionRecord(reception *ReceptionStatistics, number uint64, timestamp uint32, arrival uint32) {
	rtpw_reception_record(reception.c(), number, timestamp, arrival)
}

func receptionReport(reception *ReceptionStatistics) (ReceptionReport, error) {
	var report ReceptionReport
	status := rtpw_reception_report(reception.c(), report.c())
	return report, errorOf(status)
}

func appendReport(data []byte, report *ReceptionReport, ssrc uint32, lastReport uint32, delay uint32) ([]byte, error) {
	var it written
	status := rtpw_write_report(report.c(), ssrc, lastReport, delay, &it.data[0], uintptr(len(it.data)), &it.n)
	return it.after(data, status)
}

func wideRestartingReceive(receiver *rtpw_wide_restarting_receiver, words []uint64, sequenceNumber uint16) (uint64, int32) {
	var number uint64
	status := rtpw_wide_restarting_receive(receiver, firstUint64(words), uintptr(len(words)), sequenceNumber, &number)
	return number, status
}

func extendU8(previous uint64, number uint8) uint64 {
	return rtpw_extend_u8(previous, number)
}

func extendU15(previous uint64, number uint16) uint64 {
	return rtpw_extend_u15(previous, number)
}

func extendU16(previous uint64, number uint16) uint64 {
	return rtpw_extend_u16(previous, number)
}

func extendU32(previous uint64, number uint32) uint64 {
	return rtpw_extend_u32(previous, number)
}

func packetParseMany(buf []byte, datagrams []datagram) {
	rtpw_packet_parse_many(first(buf), uintptr(len(buf)), firstDatagram(datagrams), uintptr(len(datagrams)))
}

func parseMany(buf []byte, m *Map, datagrams []datagramHeader) {
	rtpw_parse_many(first(buf), uintptr(len(buf)), m.orNone().c(), firstDatagramHeader(datagrams), uintptr(len(datagrams)))
}

func receiveMany(receivers []Receiver, arrivals []arrival) {
	rtpw_receive_many(firstReceiver(receivers), uintptr(len(receivers)), firstArrival(arrivals), uintptr(len(arrivals)))
}

func prepareGroup(ids *NewIDs, elements []Place, allowed Forms, group *PreparedGroup) error {
	return errorOf(rtpw_prepare_group(ids.c(), firstElement(elements), uintptr(len(elements)), uint8(allowed), group.c()))
}

func readFixedPart(datagram []byte, fixed *FixedPart, layout *Layout) int32 {
	return rtpw_read_fixed_part(first(datagram), uintptr(len(datagram)), fixed.c(), layout.c())
}

func writeFixedPart(fixed *FixedPart, buf []byte) error {
	return errorOf(rtpw_write_fixed_part(fixed.c(), first(buf), uintptr(len(buf))))
}
