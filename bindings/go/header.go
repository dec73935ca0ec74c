package rtpwire

import "fmt"

// A Header is the header of a packet (RFC 3550, 5.1), with the values of its block: [Packet.Header] is a copy of the one
// that was read, and [Header.WriteInto] writes one. It may be copied.
type Header struct {
	headerLen int
	// Timestamp is the moment of the payload's first byte, in ticks of the payload's own clock.
	Timestamp uint32
	// SSRC is the stream's source.
	SSRC uint32
	csrc [15]uint32
	// SequenceNumber is the low 16 bits of the packet's number.
	SequenceNumber uint16
	// PayloadType says what the payload is, 0 to 127.
	PayloadType uint8
	csrcCount   uint8
	// Marker is M.
	Marker bool
	// HasPadding is P: whether there is padding at the end of the payload. Where a header that was read is written for a
	// payload without its padding, make it false: else each peer takes the payload's last bytes for padding.
	HasPadding bool
	// HasExtension is X: whether there is a block of elements. Without one no value is written.
	HasExtension bool
	// Values are those of the block's elements: none without a block.
	Values Values
}

// NewHeader is a header with these values, all else zero: HasExtension is set exactly where one of them is there, so that
// what is given is written.
func NewHeader(values Values) *Header {
	return &Header{HasExtension: values != Values{}, Values: values}
}

// String says in a line whose header it is: the SSRC, payload type, sequence number and timestamp, and how many bytes it
// took in the packet, where it was read.
func (h Header) String() string {
	const format = "SSRC %d, payload type %d, number %d, timestamp %d"
	fields := fmt.Sprintf(format, h.SSRC, h.PayloadType, h.SequenceNumber, h.Timestamp)
	if h.headerLen == 0 {
		return fields
	}
	return fmt.Sprintf("%s, header %d bytes", fields, h.headerLen)
}

// CSRC is the contributing sources, at most 15, in order. It is a part of the header, not a copy: what is written
// through it changes the header, and an append copies.
func (h *Header) CSRC() []uint32 {
	return h.csrc[:h.csrcCount:h.csrcCount]
}

// SetCSRC sets the contributing sources, which may be a part of those of the header. It returns ErrBadField, and
// changes nothing, where there are more than 15.
func (h *Header) SetCSRC(sources []uint32) error {
	if len(sources) > len(h.csrc) {
		return ErrBadField
	}
	count := copy(h.csrc[:], sources)
	for i := count; i < len(h.csrc); i++ {
		h.csrc[i] = 0
	}
	h.csrcCount = uint8(count)
	return nil
}

// WireLen is how many bytes WriteInto writes: a multiple of 4. It returns ErrBadField as WriteInto does.
func (h *Header) WireLen(m *Map) (int, error) {
	return wireLen(m, h)
}

// WriteInto writes the header to the front of the buffer, and returns how many bytes it took: the payload follows there.
// Those after them stay. Where there is a block it has an element for each mapped id whose value is there, by rising
// id, in the one-byte form where no id above 14 and no KindLayers is mapped, and no text that is written is empty. A
// layer allocation isn't written ([Header.WriteLayers]). A value without an id, or without a block, is left out, and no
// error says so: [Header.LeftOut] tells these, and [Header.WriteAll] refuses them. Where HasPadding is true the padding
// is the caller's to write behind the payload ([Pad] does both).
//
// It returns ErrBadField where the payload type is above 127, the orientation none of the four, or the audio level none
// of -127 to 0, and else ErrShortBuffer where the buffer has too few bytes; nothing is written then.
func (h *Header) WriteInto(buf []byte, m *Map) (int, error) {
	return write(m, h, buf)
}

// WireLenLayers is how many bytes WriteLayers writes: a multiple of 4. It returns ErrBadField as WriteLayers does.
func (h *Header) WireLenLayers(m *Map, layers *Layers) (int, error) {
	return wireLenLayers(m, h, layers)
}

// WriteLayers writes the header as WriteInto does, and these layers, in an element for each id that means KindLayers: so
// what [Layers.Parse] read is written again. A stream is written without the layers at its end that aren't active.
//
// It returns ErrBadField also where no element can carry the layers, mapped or not: the packet's stream is above 3, or
// above 0 without a stream; a rate is 2^63 or more; a width or height is 0; there is a resolution of a layer that isn't
// active, or behind an active layer without one; or they take more than 255 bytes.
func (h *Header) WriteLayers(buf []byte, m *Map, layers *Layers) (int, error) {
	return writeLayers(m, h, layers, buf)
}

// LeftOut is the kinds of which there is a value that WriteInto leaves out: all that are there where HasExtension is false,
// and else those that aren't mapped; those of which a second value is absent, as an audio level without voice or one of two
// playout delays; and KindLayers where a layer allocation was read. It returns ErrBadField as WriteInto does. It
// doesn't see elements that have no value: those of kinds without one, of URIs that aren't known and of a block of another
// form are no part of a header. To send a packet on with all of its elements, change it where it lies ([Fields],
// [Renumber]).
func (h *Header) LeftOut(m *Map) (KindSet, error) {
	kinds, err := leftOut(m, h)
	return KindSet(kinds), err
}

// LeftOutLayers is the same where WriteLayers writes: these layers are left out where HasExtension is false or KindLayers
// isn't mapped.
func (h *Header) LeftOutLayers(m *Map, layers *Layers) (KindSet, error) {
	kinds, err := leftOutLayers(m, h, layers)
	return KindSet(kinds), err
}

// WriteAll writes the header as WriteInto does, where no value is left out. It returns the errors of WriteInto; and after
// ErrBadField and before ErrShortBuffer a *[LeftOutError], where LeftOut tells any kind. Nothing is written then. It
// doesn't see elements that have no value, as LeftOut doesn't: of a packet that was read they aren't written, and no error
// says so.
func (h *Header) WriteAll(buf []byte, m *Map) (int, error) {
	kinds, err := h.LeftOut(m)
	if err != nil {
		return 0, err
	}
	if kinds != 0 {
		return 0, &LeftOutError{kinds}
	}
	return h.WriteInto(buf, m)
}

// WriteAllLayers writes the header as WriteLayers does, where no value is left out. It returns the errors of WriteLayers,
// and a *[LeftOutError] as WriteAll does.
func (h *Header) WriteAllLayers(buf []byte, m *Map, layers *Layers) (int, error) {
	kinds, err := h.LeftOutLayers(m, layers)
	if err != nil {
		return 0, err
	}
	if kinds != 0 {
		return 0, &LeftOutError{kinds}
	}
	return writeLayers(m, h, layers, buf)
}

// WriteWith writes the header with a block of these elements, whatever HasExtension and Values hold, and returns how
// many bytes it took; those after them stay. Each place is one in data, which is copied where it overlaps the buffer.
// The block is in the one-byte form where that can carry each element: ids 1 to 14, 1 to 16 bytes.
//
// It returns ErrBadField where the payload type is above 127, or an element has the id 0, more than 255 bytes or
// bytes past the end of data, or all of them are too long for a block; and else ErrShortBuffer. Nothing is written
// then.
func (h *Header) WriteWith(buf, data []byte, places []Place) (int, error) {
	return writeWithForm(h, data, places, NoBlock, buf)
}

// WriteWithForm writes as WriteWith does, in this form alone, for a peer that hasn't agreed to both forms in one
// stream (RFC 8285, 4.1.2): OneByteForm or TwoByteForm.
//
// It returns ErrBadField also where the form is another number, or can't carry an element.
func (h *Header) WriteWithForm(buf []byte, form Form, data []byte, places []Place) (int, error) {
	if form == NoBlock {
		return 0, ErrBadField
	}
	return writeWithForm(h, data, places, form, buf)
}

// WireLenWith is how many bytes WriteWith writes: a multiple of 4. It returns ErrBadField as WriteWith does.
func (h *Header) WireLenWith(data []byte, places []Place) (int, error) {
	return h.wireLenWith(NoBlock, data, places)
}

// WireLenWithForm is how many bytes WriteWithForm writes: a multiple of 4. It returns ErrBadField as WriteWithForm does.
func (h *Header) WireLenWithForm(form Form, data []byte, places []Place) (int, error) {
	if form == NoBlock {
		return 0, ErrBadField
	}
	return h.wireLenWith(form, data, places)
}

func (h *Header) wireLenWith(form Form, data []byte, places []Place) (int, error) {
	_, err := writeWithForm(h, data, places, form, nil)
	if err != ErrShortBuffer {
		return 0, err
	}
	body, fitsOneByte := 0, form != TwoByteForm
	for _, it := range places {
		body += it.Len
		fitsOneByte = fitsOneByte && it.ID <= 14 && 1 <= it.Len && it.Len <= 16
	}
	each := 2
	if fitsOneByte {
		each = 1
	}
	return 12 + 4*int(h.csrcCount) + 4 + (body+each*len(places)+3)/4*4, nil
}
